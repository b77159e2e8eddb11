# Completions of otio for bash. Written by share/make.
# Where there is no completion here, bash completes the names of files.
_otio() {
    local now=${COMP_WORDS[COMP_CWORD]} before=${COMP_WORDS[COMP_CWORD-1]} words
    if [ "$now" = "=" ]; then
        now=
    elif [ "$before" = "=" ]; then
        before=${COMP_WORDS[COMP_CWORD-2]}
    fi
    COMPREPLY=()
    if [ "$COMP_CWORD" -eq 1 ]; then
        compopt +o default
        COMPREPLY=($(compgen -W "convert frames edit cat tool stat pull media drill" -- "$now"))
        return
    fi
    case ${COMP_WORDS[1]} in
    convert) words="--from --to --family --rate --drop --wide --notes --media -o --output" ;;
    frames) words="--child --start --count --rate --media -o --output" ;;
    edit) words="--script --rate --media -o --output" ;;
    cat) words="--rate --media -o --output" ;;
    tool) words="--rate --media -o --concat --stack --video-only --audio-only --remove-transitions --trim --flatten --keep-flattened-tracks --list-tracks --list-clips --list-media --stats --output" ;;
    stat) words="--rate --media -o --output" ;;
    pull) words="--handles --rate --media -o --output" ;;
    media) words="-o --output" ;;
    drill) words="-o --output" ;;
    esac
    case $before in
    --media | --script | --output | -o) ;;
    --from) COMPREPLY=($(compgen -W "otio edl" -- "$now")) ;;
    --to) COMPREPLY=($(compgen -W "otio edl json" -- "$now")) ;;
    --family) COMPREPLY=($(compgen -W "1 2" -- "$now")) ;;
    --flatten) COMPREPLY=($(compgen -W "video audio all" -- "$now")) ;;
    --rate | --child | --start | --count | --trim | --handles) compopt +o default ;;
    *)
        case $now in
        -*) COMPREPLY=($(compgen -W "$words" -- "$now")) ;;
        esac
        ;;
    esac
}
complete -o default -F _otio otio
