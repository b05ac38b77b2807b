" :make checks the system that is edited, and the list of errors goes to the refused place.
" Put these lines into ~/.vim/ftplugin/mbx.vim, and this one into your vimrc:
"   autocmd BufNewFile,BufRead *.mbx setfiletype mbx
" Where the Python package is installed, its `paver-tools explain --line` says what to write instead, in one line. Else the
" program's own line is shown; it names no file, so sed puts its whole path in front.
if executable('paver-tools')
  setlocal makeprg=paver-tools\ explain\ --line\ %:p:S
  setlocal errorformat=%f:%l:%c:\ %m,%-G%.%#
else
  setlocal makeprg=paver\ check\ --\ %:S\ 2>&1\ >/dev/null\ \\\|\ sed\ 's,^,%:p:,'
  setlocal errorformat=%f:system:\ line\ %l\ column\ %c\ byte\ %*\\d:\ %m,%-G%.%#
endif
" Highlights: words of the profile, words that IBEX has beyond it, numbers, comments.
if has('syntax')
  syntax keyword mbxBlock Constants constants Variables variables Constraints constraints Function function Return return End end
  syntax keyword mbxFunction abs sqr min max in oo
  syntax keyword mbxOutside sqrt root exp log ln cos sin tan acos asin atan atan2 cosh sinh tanh acosh asinh atanh sign pi for sum
  syntax keyword mbxOutside Minimize minimize
  syntax match mbxNumber /\<[0-9]\+\(\.[0-9]*\)\?\([eE][+-]\?[0-9]\+\)\?/
  syntax match mbxOutside /==\|!=\|\*\*/
  syntax match mbxComment +//.*$+
  syntax region mbxComment start=+/\*+ end=+\*/+
  highlight default link mbxBlock Statement
  highlight default link mbxFunction Function
  highlight default link mbxOutside Error
  highlight default link mbxNumber Number
  highlight default link mbxComment Comment
endif
