#!/bin/sh
# Stands on the PATH in the place of openssl, and writes down in $SIGNED what it signs.
PATH=${PATH#*:}
case ${1-},${2-} in
  pkeyutl,-sign)
    openssl "$@" && {
      cat "$7"
      echo
    } >> "$SIGNED"
    ;;
  *) exec openssl "$@" ;;
esac
