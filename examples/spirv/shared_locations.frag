#version 450
// Several inputs and outputs in one location, each with some of its components.
layout(location = 0) in vec2 uv;
layout(location = 0, component = 2) in float fog;
layout(location = 1, component = 1) flat in uint layer;
layout(location = 1, component = 3) flat in int side;
layout(location = 2, component = 1) in vec2 corners[2];
layout(location = 3, component = 3) in float weight;

layout(location = 0) out vec3 color;
layout(location = 0, component = 3) out float alpha;

void main() {
    vec2 corner = mix(corners[0], corners[1], uv);
    color = vec3(corner * weight, float(layer) / 255.0);
    alpha = side < 0 ? fog : 1.0 - fog;
}
