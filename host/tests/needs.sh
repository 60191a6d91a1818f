#!/usr/bin/env bash
# needs.sh ARCHIVE: of what is outside the archive asks for memcpy and memset alone, as README and kinphlor.h say.
set -eu -o pipefail
# A line of nm's has a kind and a name; where it has one word, it names the object file.
asked=$(nm -u "$1" | awk 'NF == 2 { print $2 }' | sort -u)
for name in $asked; do
    if [ "$name" != memcpy ] && [ "$name" != memset ]; then
        echo "needs: FAILED: $1 asks for $name" >&2
        exit 1
    fi
done
echo needs: the archive asks for $asked
