// What a library that takes the place of main in Debian's ceph-mds has in common: preloaded, it is run in the program's own process. The
// program's own globals are made before main.
#pragma once

#include <cstdlib>
#include <dlfcn.h>

// The program looks at its context's settings before it logs, so there has to be one.
inline bool make_context() {
    using Make = void (*)(void *, unsigned, int, int);
    auto make = reinterpret_cast<Make>(dlsym(RTLD_DEFAULT, "_ZN4ceph6common11CephContextC1Ej18code_environment_ti"));
    auto context = static_cast<void **>(dlsym(RTLD_DEFAULT, "_ZN4ceph6global14g_ceph_contextE"));
    if (make == nullptr || context == nullptr) {
        return false;
    }
    *context = calloc(1, 1 << 20);
    make(*context, 8, 0, 0);
    return true;
}

// What runs in the place of main, and ends the process.
int run(int, char **, char **);

extern "C" int __libc_start_main(int (*)(int, char **, char **), int argc, char **argv, void (*init)(), void (*fini)(),
                                 void (*rtld_fini)(), void *stack_end) {
    auto start = reinterpret_cast<decltype(&__libc_start_main)>(dlsym(RTLD_NEXT, "__libc_start_main"));
    return start(run, argc, argv, init, fini, rtld_fini, stack_end);
}
