#version 460
// The light on a tile, which is of one color for each triangle.
#extension GL_EXT_mesh_shader : require
layout(location = 0) in Surface {
    vec3 normal;
    flat uint tile;
} surface;

layout(location = 2) in vec2 place;

layout(location = 3) perprimitiveEXT in vec4 color;

layout(set = 1, binding = 0) uniform sampler2DArray ground;

layout(location = 0) out vec4 seen;

void main() {
    float light = max(dot(normalize(surface.normal), vec3(0.0, 1.0, 0.0)), 0.1);
    seen = color * light * texture(ground, vec3(place, float(surface.tile % 4u)));
}
