# From include/jpeg_block.h, the functions that bindings/exact.c puts before those of the archive. A buffer is a pointer and a length of its name.
match($0, /^uint32_t jpeg_block_[a-z0-9_]*\(.*\);$/) {
    open = index($0, "(")
    name = substr($0, 10, open - 10)
    parameters = substr($0, open + 1, length($0) - open - 2)
    count = split(parameters, parameter, ", ")
    before = after = arguments = ""
    for (n = 1; n <= count; n++) {
        words = split(parameter[n], word, " ")
        argument = word[words]
        if (sub(/^\*/, "", argument)) {
            input = word[1] == "const"
            size = argument "_len * sizeof *" argument
            before = before "    " word[input + 1] " *exact_" argument " = lent(" argument ", " size ");\n"
            after = after "    " (input ? "input" : "output") "_returned(" argument ", exact_" argument ", " size ");\n"
            argument = "exact_" argument
        }
        arguments = arguments (n == 1 ? "" : ", ") argument
    }
    printf "uint32_t __real_%s(%s);\nuint32_t __wrap_%s(%s);\n", name, parameters, name, parameters
    printf "uint32_t __wrap_%s(%s)\n{\n%s    uint32_t status = __real_%s(%s);\n%s    return status;\n}\n", name, parameters, before, name, arguments, after
}
