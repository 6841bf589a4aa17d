" Vim syntax file for scripts of pgscript. For use, add the folder share/vim to 'runtimepath'.
" bench/check_words compares the words with the definitions that the program is proved to follow.
if exists('b:current_syntax')
  finish
endif

syntax case match

" the first word of a line
syntax keyword pgscriptCommand contained begin commit rollback savepoint release raise report stat
syntax keyword pgscriptCommand contained context switch onreset reset resetonly delete deletechildren reparent
syntax keyword pgscriptCommand contained alloc alloc0 realloc free put show
syntax keyword pgscriptCommand contained pin unpin buffer open touch close lock unlock ref unref acquire drop
syntax keyword pgscriptCommand contained snapshot unsnapshot push pop plan planref planunref plandrop
syntax keyword pgscriptCommand contained portal fetch endportal
" words behind the first one
syntax keyword pgscriptValue contained to default small slab generation bump relcache catcache catlist tupdesc
syntax keyword pgscriptMode contained AccessShareLock RowShareLock RowExclusiveLock ShareUpdateExclusiveLock
syntax keyword pgscriptMode contained ShareLock ShareRowExclusiveLock ExclusiveLock AccessExclusiveLock

syntax match pgscriptLine /^.*$/ contains=pgscriptSession,pgscriptFirst,pgscriptRest
syntax match pgscriptSession /^@[1-8] / contained nextgroup=pgscriptFirst
syntax match pgscriptFirst /\%(^\|\%(^@[1-8] \)\@3<=\)[a-z0]\+/ contained contains=pgscriptCommand nextgroup=pgscriptRest
syntax match pgscriptRest / .*$/ contained contains=pgscriptValue,pgscriptMode,pgscriptNumber
syntax match pgscriptNumber / \@1<=\%(0\|[1-9][0-9]*\)\%( \|$\)\@=/ contained
syntax match pgscriptComment /^#.*$/

highlight default link pgscriptCommand Statement
highlight default link pgscriptValue Type
highlight default link pgscriptMode Type
highlight default link pgscriptNumber Number
highlight default link pgscriptSession PreProc
highlight default link pgscriptComment Comment

let b:current_syntax = 'pgscript'
