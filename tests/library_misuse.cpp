// Uses that takhvoi.hpp refuses when it is compiled: each of MISUSE 1 to 7. With MISUSE 0 it compiles.
#include "takhvoi.hpp"

using namespace takhvoi;

int main() {
    Kernel kernel = Kernel::in_memory(1 << 16).value();
    LockedBlock block = kernel.make_block().value();
#if MISUSE == 1
    (void)kernel.make_block().value().chunk(16).size();             // a chunk of a lock that is given back at once
#elif MISUSE == 2
    LockedBlock other = block;                                      // one lock that would be given back twice
#elif MISUSE == 3
    (void)Kernel::in_memory(1 << 16).value().make_block();          // a block of a kernel that is closed at once
#elif MISUSE == 4
    Kernel other = kernel;                                          // one kernel that would be closed twice
#elif MISUSE == 5
    (void)kernel.load("").value().routine("f");                     // a routine of an image that is unloaded at once
#elif MISUSE == 6
    Room room(std::string_view("abc"));                             // bytes that are not to be written over
#elif MISUSE == 7
    (void)kernel.make_block().value().make_array(2);                // an array in a lock that is given back at once
#endif
    (void)block;
}
