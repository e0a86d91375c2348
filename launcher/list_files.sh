# list_files TOP KEPT: a line for each file among the sources below TOP, and one for the program in the folder KEPT, with its
# inode, its size and the time at which its inode was last changed. While these lines are the same, nothing was written to any
# of the files: a program can set back the time of a file's content, but not this one. Crates that the program is not made of
# are in it too, which costs no more than one reading of the sources after an edit of theirs.
list_files() {
    LC_ALL=C find "$2/rcap" "$1/HANDLES" "$1/crates.txt" "$1/crates" \
        \( -name out -o -name must-fail \) -prune -o ! -type d -printf '%i %s %C@ %P\n' 2>&1
}
