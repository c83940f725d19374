" Vim syntax file for Quartz, an imperative synchronous language.
if exists("b:current_syntax")
  finish
endif

syn keyword quartzStatement nothing pause halt await abort suspend when emit next if else loop always while do
syn keyword quartzModifier immediate weak
syn keyword quartzDeclaration module event mem
syn keyword quartzType bool nat int bv
syn keyword quartzBoolean true false
syn keyword quartzFunction bv2nat nat2bv
syn match quartzNumber "\<[0-9]\+\>"
syn match quartzBits "\<0b[01]\+\>"
syn match quartzFlow "[?!]\ze\s*\h"
syn match quartzParallel "||"
syn match quartzComment "//.*$" contains=@Spell
syn region quartzComment start="/\*" end="\*/" contains=@Spell

hi def link quartzStatement Statement
hi def link quartzModifier Keyword
hi def link quartzDeclaration StorageClass
hi def link quartzType Type
hi def link quartzBoolean Boolean
hi def link quartzFunction Function
hi def link quartzNumber Number
hi def link quartzBits Number
hi def link quartzFlow Special
hi def link quartzParallel Operator
hi def link quartzComment Comment

let b:current_syntax = "quartz"
