" Colours of programs for vim. Copy this file to ~/.vim/syntax/gsnap.vim, and put into ~/.vim/ftdetect/gsnap.vim the line
"   autocmd BufRead,BufNewFile *.program set filetype=gsnap
if exists("b:current_syntax")
  finish
endif

syntax case match
setlocal iskeyword=a-z,A-Z,48-57,_
syntax keyword gsnapStructure element end func schedule program const var
syntax keyword gsnapType Vertex Edge edgeset vertexset vector int bool
syntax keyword gsnapControl while for in if else
syntax keyword gsnapOperator and or not new load argv print
syntax keyword gsnapConstant true false
syntax keyword gsnapCall from to apply applyModified filter getVertices getOutDegrees addVertex getVertexSetSize
syntax keyword gsnapSchedule configApplyDirection configApplyParallelization configApplyDenseVertexSet
syntax keyword gsnapSchedule fuseApplyFunctions fuseFields
syntax match gsnapNumber "\<[0-9]\+\>"
syntax match gsnapReduction "+=\|\<min=\|\<max="
syntax match gsnapLabel "#[A-Za-z_][A-Za-z0-9_]*#"
syntax match gsnapText "\"[ !#-~]*\""
syntax match gsnapComment "//.*$" contains=gsnapTodo
syntax keyword gsnapTodo TODO contained

highlight default link gsnapStructure Statement
highlight default link gsnapType Type
highlight default link gsnapControl Conditional
highlight default link gsnapOperator Operator
highlight default link gsnapConstant Boolean
highlight default link gsnapCall Function
highlight default link gsnapSchedule PreProc
highlight default link gsnapNumber Number
highlight default link gsnapReduction Operator
highlight default link gsnapLabel Label
highlight default link gsnapText String
highlight default link gsnapComment Comment
highlight default link gsnapTodo Todo

let b:current_syntax = "gsnap"
