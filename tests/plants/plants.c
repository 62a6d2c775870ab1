// Which wrong body is switched on: the number in the environment's PLANT, or none.
#include <stdbool.h>
#include <stdlib.h>

bool plant_is_on(unsigned wanted) {
    static long number = -1;
    if (number < 0) {
        const char *text = getenv("PLANT");
        number = text ? atol(text) : 0;
    }
    return (unsigned long)number == wanted;
}
