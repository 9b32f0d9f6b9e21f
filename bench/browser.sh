#!/usr/bin/env bash
# Clicks through a closure and a release on the page of examples/desk, in headless Chromium: bench/browser.sh [FOLDER]
#
# The closure is given by keyboard alone, the program is killed meanwhile, and the release is given by mouse. Each step is a check; the last line
# counts those that came out right. Screenshots go to FOLDER, out/browser if left out: at 100 % and 200 %, and in grey. desk.png among them is the
# one that docs/GUIDE.md shows, as docs/desk.png: look at it before you copy it there.
#
# It needs python3, and chromium and chromedriver, in Debian the packages chromium and chromium-driver. It installs nothing.
set -euo pipefail

here=$(cd "$(dirname "$(readlink -f "$0")")" && pwd)
for tool in chromium chromedriver; do
    command -v "$tool" > /dev/null || { echo "browser: $tool is missing; in Debian: apt-get install chromium chromium-driver" >&2; exit 2; }
done
exec python3 -B "$here/browser.py" "${1:-$(dirname "$here")/out/browser}"
