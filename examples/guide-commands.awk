# Makes a shell script of a guide's blocks ```sh, each with its output into a file of its own in the folder `into`, and
# puts the blocks ```output beside them, as what is wanted. A block ```sh not-run is for the reader alone. One
# ```sh needs-python calls a tool, or stands on what one has written; without python=1 it is left out.
/^```sh$/ || python && /^```sh needs-python$/ {
    n++
    is_left_out = 0
    printf "exec >%s/%d.got 2>%s/%d.err\n", into, n, into, n
    part = "code"
    next
}
/^```sh needs-python$/ { is_left_out = 1; part = ""; next }
/^```output$/ && is_left_out { is_left_out = 0; part = ""; next }
/^```output$/ { part = "wanted"; printf "" >(into "/" n ".wanted"); next }
/^```/ { part = ""; next }
part == "code" { print }
part == "wanted" { print >(into "/" n ".wanted") }
END { printf "exec >/dev/null\necho >%s/ended\n", into }
