# Each table reads this file first. OTIO is the path of the program that is tested.

if [ ! -x "${OTIO:-}" ]; then
    echo "OTIO names no program" >&2
    exit 2
fi

otio() {
    "$OTIO" "$@"
}
