# Completions of mdbal, mdbal_ceph, mdbal_check and mdbal_drive for bash: source this file, or put it into the folder of bash-completion.
_mdbal_words() { mapfile -t COMPREPLY < <(compgen -W "$1" -- "${COMP_WORDS[COMP_CWORD]}"); }
# Names may have blanks; a folder goes on with a slash.
_mdbal_files() { compopt -o filenames; mapfile -t COMPREPLY < <(compgen "$1" -- "${COMP_WORDS[COMP_CWORD]}"); }
_mdbal() {
    case ${COMP_WORDS[COMP_CWORD-1]} in
        --limit) return ;;
        --proofs) _mdbal_files -f; return ;;
    esac
    _mdbal_words '--limit --strict --proofs --quiet --help --version'
}
_mdbal_ceph() {
    case ${COMP_WORDS[COMP_CWORD-1]} in
        --parts) _mdbal_words 'auto'; return ;;
        --own|--check|--leave|--record|--pins|--svg|--script) _mdbal_files -f; return ;;
        --mount) _mdbal_files -d; return ;;
        --mask) _mdbal_words 'all'; return ;;
        --most-pins|--least-gain|--least-heat|--least-by-inodes|--keep|--most-inodes|--hours|--made) return ;;
    esac
    case ${COMP_WORDS[COMP_CWORD]} in
        -*) _mdbal_words '--parts --most-pins --mask --own --check --least-gain --least-heat --least-by-inodes --keep --most-inodes --leave --hours --made --record --mount --pins --subvolumes --svg --script --json --paths0 --help --version' ;;
        *) _mdbal_files -f ;;
    esac
}
_mdbal_check() {
    case ${COMP_WORDS[COMP_CWORD]} in
        -*) _mdbal_words '--help --version' ;;
        *) _mdbal_files -f ;;
    esac
}
_mdbal_drive() {
    case ${COMP_WORDS[COMP_CWORD-1]} in
        --batch-inodes|--poll|--longest-wait) return ;;
    esac
    _mdbal_words 'set restore --batch-inodes --poll --longest-wait --help --version'
}
complete -F _mdbal mdbal
complete -F _mdbal_check mdbal_check
complete -F _mdbal_ceph mdbal_ceph
complete -F _mdbal_drive mdbal_drive
