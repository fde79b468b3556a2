#!/usr/bin/env bash
# Links km, its manual page, its completion for bash and the highlighting for vim into a user's folders. The links lead
# into this repository, which stays where it is.
# usage: tools/install.sh [HOME]
set -eu
cd "$(dirname "$0")/.."
root=$(pwd)
home=${1:-$HOME}
link() {
  mkdir -p "$(dirname "$home/$2")"
  ln -sfn "$root/$1" "$home/$2"
  echo "$home/$2"
}
link tools/km .local/bin/km
link docs/man/km.1 .local/share/man/man1/km.1
link tools/completion/km.bash .local/share/bash-completion/completions/km
link tools/vim/syntax/kmemleak.vim .vim/syntax/kmemleak.vim
link tools/vim/ftdetect/kmemleak.vim .vim/ftdetect/kmemleak.vim
