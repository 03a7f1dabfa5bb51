#!/bin/sh
# Installs rescue-view and rescue-sweep where Python and the libraries are there, and says what is
# missing where not; that is no failure, since `rescue` works without them.
#
#     tools/install.sh PYTHON DESTDIR PREFIX
python=$(command -v "$1") destdir=$2 prefix=$3
missing=
if [ -z "$python" ] || ! "$python" -c 'import sys; assert sys.version_info >= (3, 11)' \
    2> /dev/null; then
    missing=" python3 (3.11 or later)"
else
    for pair in elftools:python3-pyelftools jinja2:python3-jinja2 rich:python3-rich; do
        "$python" -c "import ${pair%%:*}" 2> /dev/null || missing="$missing ${pair##*:}"
    done
fi
if [ -n "$missing" ]; then
    echo "rescue-view and rescue-sweep are not installed; missing:$missing (docs/TOOLS.md)"
    exit 0
fi
package=$prefix/share/rescue-tools
rm -rf "$destdir$package"
install -d "$destdir$prefix/bin" "$destdir$package/rescue_tools/pages" || exit 1
cd "$(dirname "$0")/src/rescue_tools" || exit 1
install -m 644 ./*.py py.typed "$destdir$package/rescue_tools" || exit 1
install -m 644 pages/* "$destdir$package/rescue_tools/pages" || exit 1
for name in view sweep; do
    cat > "$destdir$prefix/bin/rescue-$name" <<END || exit 1
#!$python
import sys

sys.path.insert(0, "$package")
from rescue_tools.$name import main

sys.exit(main())
END
    chmod 755 "$destdir$prefix/bin/rescue-$name" || exit 1
done
"$python" -c "import distributed" 2> /dev/null ||
    echo "rescue-sweep has no --scheduler; missing: python3-distributed"
