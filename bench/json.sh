#!/bin/sh
# Measures `otio convert --to json` beside its peers; see json_layout.py.
exec python3 "$(dirname "$0")/json_layout.py" "$@"
