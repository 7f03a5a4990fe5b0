# tests/tools.sh: functions for the test scripts, which report what they leave out because a tool is missing, and its package.
left_out=()
has() { command -v "$1" >/dev/null 2>&1; }
# leave_out WHAT PACKAGE: notes that the test does not try WHAT, since it needs a Debian package.
leave_out() { left_out+=("left out: $1 (Debian package $2)"); }
tell_left_out() { [ ${#left_out[@]} = 0 ] || printf '%s\n' "${left_out[@]}" | sort -u; }

# python_that CODE: prints the first python3 here that runs this code.
python_that() {
    local python
    for python in python3 /usr/bin/python3; do
        if "$python" -c "$1" 2>/dev/null; then
            echo "$python"
            return
        fi
    done
    return 1
}
# Prints a python3 that can make a venv and build extensions. It has setuptools, wheel and its headers.
python_builder() { python_that 'import ensurepip, setuptools, wheel, sysconfig, os; os.stat(sysconfig.get_path("include") + "/Python.h")'; }
python_builder_lacks="python3-dev, python3-venv, python3-setuptools and python3-wheel"
