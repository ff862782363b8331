# The instructions a command that aren't DES, from what callgrind writes: those of all functions but the crates des, quick and tdes, less what these
# three ask of others, such as copies by the C library. Wants the number of commands in the variable `commands`. Behind
# that, the ten functions with the most instructions of their own.

function is_des(name) {
    return name ~ /^(des|quick|tdes)::/
}

/^fn=/ {
    caller = substr($0, 4)
}

/^cfn=/ {
    callee = substr($0, 5)
}

# The line behind a call has its cost, the callee's own calls with it.
/^calls=/ {
    getline
    if (is_des(caller) && !is_des(callee)) {
        asked += $NF
    }
    next
}

/^[0-9]/ {
    all += $NF
    own[caller] += $NF
    if (!is_des(caller)) {
        others += $NF
    }
}

END {
    if (commands == 0 || others == all) {
        print "callgrind's file has no commands, or no DES" > "/dev/stderr"
        exit 1
    }
    printf "%.0f instructions a command that aren't DES (%.0f with the copies that DES asks of the C library), %.0f in all\n",
        (others - asked) / commands, others / commands, all / commands
    print "where they go, a command:"
    list = "sort -rn | head -n 10"
    for (name in own)
        printf "%8.0f  %s\n", own[name] / commands, name | list
    close(list)
}
