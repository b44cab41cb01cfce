#!/bin/sh
# Writes guests as constants of Rattle for tests to the standard output: for each name its image as bytes, the text that it
# prints, and its machine file where it has one. `make images` puts them where the tests of the program read them.
cd "$(dirname "$0")" || exit 2

# Writes the lines of a file as those of a constant's text.
lines() {
    # A space at the head of a line would be taken for the layout of the constant.
    sed 's/[\\"]/\\&/g; s/^ /\\x20/; s/.*/    &\\n\\/' "$1"
}

echo "//! Guests of \`guests/\`, and what they print. \`make -C guests images\` writes this file."
for name in "$@"; do
    constant="$(echo "$name" | tr a-z A-Z)"
    echo
    echo "/// The image of \`guests/$name\`."
    echo "pub const $constant: &[u8] = b\"\\"
    od -An -v -tx1 -w28 "$name/$name.bin" | sed 's/ /\\x/g; s/.*/    &\\/' || exit 1
    echo "    \";"
    echo
    echo "/// What it prints."
    echo "pub const ${constant}_TEXT: &str = \"\\"
    lines "$name/$name.txt" || exit 1
    echo "    \";"
    [ -e "$name/$name.toml" ] || continue
    echo
    echo "/// Its machine file."
    echo "pub const ${constant}_TOML: &str = \"\\"
    lines "$name/$name.toml" || exit 1
    echo "    \";"
done
