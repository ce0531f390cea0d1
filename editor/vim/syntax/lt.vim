" Theories of lt: plain and theory texts.
if exists('b:current_syntax')
  finish
endif

syntax match ltSign ":=\|[;:$%\\]"
syntax match ltNumber "\<\d\+\>"
syntax match ltBuiltInType "\<\%(bool\|fun\)\>"
syntax match ltBuiltIn "\<\%(eq\|imp\|all\|eps\)\>"
syntax match ltTypeVariable "'\K\k*"
syntax match ltBound "%\K\k*"
syntax match ltFree "\%((\s*\$\s*\)\@40<=\K\k*"
syntax match ltBinder "\%((\s*\\\s*\)\@40<=\K\k*"

" A word is a command or a rule by its place alone: where an item or a line begins.
syntax match ltRule "\%(\%(^\|[;{]\)\s*\)\@40<=\%(assume\|weaken\|refl\|sym
      \\|trans\|cong\|abs\|beta\|eta\|eqmp\|impI\|mp\|allI\|allE\|iff\|inst\|tinst\|select
      \\|ccontr\|thm\)\>"
syntax match ltHeader "\%(\%(^\|[;}]\)\s*\)\@40<=\%(plain\|theory\)\ze\s\+\d"
syntax match ltCommand "\%(\%(^\|[;}]\)\s*\)\@40<=\%(type\|const\|axiom\|def\|typedef
      \\|lemma\|law\|corr\|relator\|property\|domain\|rule\|lifting\|lifting_typedef
      \\|quotient_type\|lift\|parametric\|param_rule\|equiv\|implies\|carry
      \\|abs_eq\|rep_eq\)\>" nextgroup=ltLabel skipwhite
syntax match ltLabel "\<\K\k*\>" contained

syntax match ltComment "#.*$" contains=@Spell

highlight default link ltComment Comment
highlight default link ltHeader PreProc
highlight default link ltCommand Keyword
highlight default link ltLabel Function
highlight default link ltRule Statement
highlight default link ltTypeVariable Type
highlight default link ltBuiltInType Type
highlight default link ltBuiltIn Operator
highlight default link ltBound Identifier
highlight default link ltFree Identifier
highlight default link ltBinder Identifier
highlight default link ltNumber Number
highlight default link ltSign Delimiter

let b:current_syntax = 'lt'
