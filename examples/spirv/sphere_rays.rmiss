#version 460
// The sky, where a ray hits nothing.
#extension GL_EXT_ray_tracing : require
layout(location = 0) rayPayloadInEXT vec4 light;

void main() {
    float up = normalize(gl_WorldRayDirectionEXT).y;
    light = mix(vec4(1.0), vec4(0.3, 0.5, 1.0, 1.0), up * 0.5 + 0.5);
}
