# The names of the examples, of sessions and of VTK files; `known NAME` ends the script where there is no such example.
sessions=$(ls -- *.session | sed 's/\.session$//')
files=$(ls vtk/*.vtk | sed 's/\.vtk$//')
known() {
    if [ ! -f "$1.session" ] && [ ! -f "$1.vtk" ]; then
        echo "There is no example $1. The examples are:" $sessions $files >&2
        exit 2
    fi
}
