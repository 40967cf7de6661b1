# Runs the commands of all pages in a root of Debian 13. tests/release sources this file.
# shellcheck shell=bash
step 'a root of Debian 13' keep_root 13 trixie gcc g++ make cmake pkg-config cargo python3 python3-pip python3-venv sudo man-db
step 'its copy' unpack_root 13
run_readme
step 'it leaves no file on Debian 13' leaves_nothing
run_tarball_page
run_wheel_page
run_crate_page
