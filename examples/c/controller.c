/* A speed controller in fixed point (Q15): proportional and integral part, a motor with some inertia, and a step of the wanted
 * speed. Products are made in 32 bits and brought back with saturation: in 16 bits they would wrap (examples/torque shows what
 * comes of that). */
#include <stdint.h>
#include <stdio.h>

typedef int16_t q15;

static q15 saturated(int32_t value) {
    if (value > INT16_MAX) return INT16_MAX;
    if (value < INT16_MIN) return INT16_MIN;
    return (q15)value;
}

static q15 product(q15 one, q15 other) {
    return saturated(((int32_t)one * other) >> 15);
}

struct controller {
    q15 proportional, integral;
    int32_t sum; /* of the errors, kept between the limits of a q15 */
};

static q15 torque(struct controller *own, q15 wanted, q15 speed) {
    q15 error = saturated((int32_t)wanted - speed);
    own->sum = saturated(own->sum + product(own->integral, error));
    return saturated(2 * (int32_t)product(own->proportional, error) + own->sum);
}

/* A sixteenth of the torque is left once friction has taken a sixteenth of the speed. */
static q15 turned(q15 speed, q15 torque) {
    return saturated(speed + ((int32_t)torque - speed) / 16);
}

int main(void) {
    struct controller own = {.proportional = 24576, .integral = 2458, .sum = 0};
    q15 speed = 0;
    for (int step = 0; step < 200; step++) {
        q15 wanted = step < 100 ? 20000 : -30000;
        q15 given = torque(&own, wanted, speed);
        speed = turned(speed, given);
        if (step % 20 == 19) printf("%3d wanted %6d torque %6d speed %6d\n", step + 1, wanted, given, speed);
    }
    return speed < -29000 && speed > -31000 ? 0 : 1;
}
