" Highlighting for scripts and live scripts of the leak detector.
if exists('b:current_syntax')
  finish
endif
syntax case match
setlocal iskeyword=@,48-57,_
syntax match kmWrong /\S\+/
syntax match kmName /\<[a-z][a-z0-9_]*\>/ contained
syntax match kmRegister /\<[a-z][a-z0-9_]\{0,15}\.\(r[0-3]\|stack\)\>/ contained
syntax match kmNumber /\<\(0x\x\+\|\d\+\)\>/ contained
syntax match kmFileWord /\<\(off\|scan\|clear\)\>\|\<\(stack\|scan\)=\(on\|off\)\>\|\<scan=\(0x\x\+\|\d\+\)\>\|\<dump=\(0x\x\+\|\d\+\)\>/ contained
syntax match kmMemory /^\s*\(memory\|section\|task\|exit\)\>.*$/ contains=kmMemoryWord,kmName,kmNumber
syntax match kmWord /^\s*\(set\|load\|store\|erase\|print\)\>.*$/ contains=kmWordWord,kmRegister,kmNumber,kmName
syntax match kmHost /^\s*\(kmalloc\|kzalloc\|kfree\|pages\|freepages\|vmalloc\|vfree\|bootmem\|free_part\)\>.*$/ contains=kmHostWord,kmRegister,kmNumber,kmName
syntax match kmNote /^\s*\(not_leak\|ignore\|no_scan\|scan_area\|transient_leak\)\>.*$/ contains=kmNoteWord,kmRegister,kmNumber,kmName
syntax match kmTime /^\s*\(tick\|begin\|step\|finish\|read\)\>.*$/ contains=kmTimeWord,kmNumber
syntax match kmWrite /^\s*write\>.*$/ contains=kmTimeWord,kmFileWord
syntax keyword kmMemoryWord memory section task exit contained
syntax keyword kmWordWord set load store erase print contained
syntax keyword kmHostWord kmalloc kzalloc kfree pages freepages vmalloc vfree bootmem free_part contained
syntax keyword kmNoteWord not_leak ignore no_scan scan_area transient_leak contained
syntax keyword kmTimeWord tick begin step finish read write contained
if expand('%:e') ==# 'live'
  syntax match kmThread /^\s*\(thread\|end\|round\)\>.*$/ contains=kmThreadWord,kmName,kmNumber
  syntax keyword kmThreadWord thread end round contained
endif
syntax match kmComment /^\s*#.*$/
highlight default link kmComment Comment
highlight default link kmMemoryWord Type
highlight default link kmWordWord Statement
highlight default link kmHostWord Function
highlight default link kmNoteWord PreProc
highlight default link kmTimeWord Keyword
highlight default link kmThreadWord Structure
highlight default link kmFileWord Constant
highlight default link kmRegister Identifier
highlight default link kmNumber Number
highlight default link kmWrong Error
let b:current_syntax = 'kmemleak'
