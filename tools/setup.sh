#!/bin/sh
# Installs from Debian, by name, what is missing of a group of packages. Where all is there it takes no time.
#
#     tools/setup.sh [core|tests|all|changes|hosts|bench]
#     tools/setup.sh names GROUP                       names them and installs nothing
#
# core is what tools/pitplan needs. tests, the default, has core and what exports, pages, scenarios and packages need and the tests
# try; all has tests and a browser; changes has all and what tools/planted_changes.py needs; hosts has tests and what the tests of several
# hosts need, which make thorough runs as root; bench stands alone.
set -eu
packages="
python3-numpy         core     arrays, everywhere
python3-pandas        core     tables, everywhere
python3-scipy         core     surfaces between points, hulls of walls, schedules (HiGHS), verification
python3-matplotlib    core     figures
python3-openpyxl      core     the workbook of pitplan schedule
python3-jinja2        core     the report and the 3D page
python3-vtk9          tests    pitplan export --to vti, and probability.vti of scenarios
python3-ezdxf         tests    pitplan export --to dxf; heights and areas of drawings
python3-gdal          tests    pitplan export --to gpkg; heights and areas of maps and rasters
libjs-three           tests    pitplan view
python3-pulp          tests    the test of a bound by another solver
coinor-cbc            tests    the same: that solver
python3-dask          tests    pitplan scenarios --on local, or on a cluster
python3-distributed   tests    the same
python3-starlette     tests    pitplan serve
python3-tomlkit       tests    the same: forms that change a project
python3-uvicorn       tests    the same
python3-httpx         tests    the tests that ask its server
openssl               tests    the test of pitplan serve behind nginx
parallel              tests    the test of pitplan scenarios --on parallel
fish                  tests    the test of pitplan's completions
zsh                   tests    the same
python3-pytest        tests    make test
python3-pytest-xdist  tests    make test-plan, as many processes as processors
python3-hypothesis    tests    the same: properties
python3-jsonschema    tests    the test of pitplan schema
black                 tests    make style: the layout of Python code
isort                 tests    the same: the order of imports
python3-pyflakes      tests    the same: names that nothing uses or defines
mypy                  tests    the same: types
python3-setuptools    tests    make dist: wheels
python3-wheel         tests    the same
python3-venv          tests    the test that installs these wheels
libreoffice-calc-nogui  tests    the test that recalculates the workbook
gcc                   tests    make library: links libpitshell.so; the tests of its header
libc6-dev             tests    the same
binutils              tests    the same
dpkg-dev              tests    make dist: the Debian package
man-db                tests    the test that the manual pages are shown
python3-sphinx        tests    make site: the pages of docs/ as HTML
python3-myst-parser   tests    the same: its reader of Markdown
furo                  tests    the same: its theme
chromium              all      the tests that open the 3D page, and print the report
python3-tornado       all      the test that clicks in the 3D page
poppler-utils         all      the test that reads the printed report
python3-selenium      all      the tests that click in the browser application
chromium-driver       all      the same
nginx-light           all      the test of pitplan serve behind it
python3-coverage      changes  tools/planted_changes.py
iproute2              hosts    the tests of scenarios on several hosts
slurm-wlm             hosts    the same
munge                 hosts    the same
g++                   bench    other people's maximum flows, beside which the program is timed
libboost-graph-dev    bench    the same
liblemon-dev          bench    the same
libmaxflow-dev        bench    the same
libigraph-dev         bench    the same
"

names() {
    case "$1" in
    core) groups="core" ;;
    tests) groups="core tests" ;;
    all) groups="core tests all" ;;
    changes) groups="core tests all changes" ;;
    hosts) groups="core tests hosts" ;;
    bench) groups="bench" ;;
    *) echo "usage: tools/setup.sh [names] [core|tests|all|changes|hosts|bench]" >&2; exit 2 ;;
    esac
    echo "$packages" | awk -v groups=" $groups " 'index(groups, " " $2 " ") { print $1 }'
}

if [ "${1:-}" = names ]; then
    names "${2:-tests}"
    exit 0
fi
wanted=$(names "${1:-tests}")
missing=""
for package in $wanted; do
    dpkg-query -W -f '${db:Status-Status}' "$package" 2>/dev/null | grep -qx installed || missing="$missing $package"
done
[ -n "$missing" ] || exit 0

# A machine that updates itself holds dpkg's lock for minutes.
waiting="-o DPkg::Lock::Timeout=600"
line="apt-get $waiting install -y --no-install-recommends$missing"
if [ "$(id -u)" -ne 0 ]; then
    echo "These packages of Debian are needed; as root run: apt-get $waiting update && $line" >&2
    exit 1
fi
echo "installing from Debian:$missing"
export DEBIAN_FRONTEND=noninteractive
# A list of packages or a mirror may be out for a moment: once more before it counts.
for try in first second; do
    apt-get $waiting update -qq || echo "the list of packages could not be renewed" >&2
    if $line -qq > /dev/null; then
        exit 0
    fi
    echo "the $try try to install failed" >&2
    sleep 5
done
exit 1
