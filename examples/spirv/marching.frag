#version 450
// A sphere by marching, optimized, so that values go around loops in phi instructions.
layout(set = 0, binding = 0) uniform Scene {
    vec4 sphere;
    vec3 eye;
    uint most_steps;
};

layout(location = 0) in vec3 ray;
layout(location = 0) out vec4 color;

float distance_to(vec3 at) {
    return length(at - sphere.xyz) - sphere.w;
}

void main() {
    vec3 direction = normalize(ray);
    float gone = 0.0;
    float least = 1000.0;
    uint steps = 0u;
    bool is_hit = false;
    while (steps < most_steps) {
        float left = distance_to(eye + direction * gone);
        if (left < 0.001) {
            is_hit = true;
            break;
        }
        if (left > 100.0) {
            break;
        }
        least = min(least, left);
        gone += left;
        ++steps;
    }
    float glow = is_hit ? 1.0 : exp(-least * 4.0);
    color = vec4(vec3(glow), float(steps) / float(most_steps));
}
