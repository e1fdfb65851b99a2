#version 450
// Moves particles of several kinds; the kind is a switch.
layout(local_size_x = 32) in;
struct Particle {
    vec3 place;
    float age;
    vec3 speed;
    uint kind;
    mat2 spin;
};
layout(std430, set = 0, binding = 0) buffer Particles {
    Particle particles[];
};
layout(std140, set = 0, binding = 1) uniform Forces {
    vec3 gravity;
    float time;
    vec4 wind[2];
    uint seed;
};

uint next_random(inout uint state) {
    state = state * 747796405u + 2891336453u;
    uint word = ((state >> ((state >> 28u) + 4u)) ^ state) * 277803737u;
    return (word >> 22u) ^ word;
}

void main() {
    uint at = gl_GlobalInvocationID.x;
    if (at >= particles.length()) {
        return;
    }
    vec3 speed = particles[at].speed;
    uint state = seed + at;
    switch (particles[at].kind) {
    case 0u:
        speed += gravity * time;
        break;
    case 1u:
    case 2u:
        speed += wind[particles[at].kind - 1u].xyz * time;
        break;
    case 7u:
        speed = -speed;
    default:
        speed *= 0.99 + 0.01 * float(next_random(state) & 255u) / 255.0;
        break;
    }
    particles[at].speed = speed;
    particles[at].place += speed * time;
    particles[at].place.xy = particles[at].spin * particles[at].place.xy;
    particles[at].age += time;
}
