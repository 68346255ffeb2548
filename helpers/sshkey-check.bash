# Completion of sshkey-check(1) for bash.
_sshkey_check() {
  local word=${COMP_WORDS[COMP_CWORD]} words
  case ${COMP_WORDS[COMP_CWORD-1]} in
    --ca|--known-hosts|--authorized-keys|--authorities|--principals|--user-authorities|--command-keys|\
    --keys|--signers|--signature|--revoked|-[kfsr])
      mapfile -t COMPREPLY < <(compgen -f -- "$word"); return ;;
    --user) mapfile -t COMPREPLY < <(compgen -u -- "$word"); return ;;
    --host) mapfile -t COMPREPLY < <(compgen -A hostname -- "$word"); return ;;
    --at|--from|--port|--identity|--namespace|-[InO]) COMPREPLY=(); return ;;
    -Y) mapfile -t COMPREPLY < <(compgen -W "find-principals verify check-novalidate" -- "$word"); return ;;
  esac
  case ${COMP_WORDS[1]} in
    login) words="--authorized-keys --authorities --principals --user-authorities --command-keys"
           words="$words --from --host --at --revoked --json" ;;
    verify) words="-k -f -I -n -s -r --at --json" ;;
    fingerprint) words="--art --json" ;;
    revoked) words="--json" ;;
    -Y) words="-f -I -n -s -r -O" ;;
    *) words="--ca --user --from --host --port --known-hosts --at --revoked --json --help --version"
       [ "$COMP_CWORD" != 1 ] || words="login verify fingerprint revoked -Y $words" ;;
  esac
  mapfile -t COMPREPLY < <(compgen -W "$words" -- "$word"; compgen -f -- "$word")
}
complete -o filenames -F _sshkey_check sshkey-check
