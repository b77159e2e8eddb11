#!/bin/sh
# Measures `otio convert` from OTIO to OTIO; see otio_objects.py.
exec python3 "$(dirname "$0")/otio_objects.py" "$@"
