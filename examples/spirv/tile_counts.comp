#version 450
// Vectors of constants that a pipeline sets, computed of each other and taken apart.
layout(constant_id = 0) const int width = 640;
layout(constant_id = 1) const int height = 360;
layout(constant_id = 2) const int tile = 16;
const ivec2 size = ivec2(width, height);
const ivec2 tiles = (size + ivec2(tile - 1, 15)) / ivec2(tile, 16);
const bool is_wide = tiles.x > tiles.y;
const ivec2 turned = tiles.yx;

layout(local_size_x = 8, local_size_y = 8) in;

layout(std430, set = 0, binding = 0) buffer Counts {
    uint counts[];
};

void main() {
    ivec2 here = ivec2(gl_GlobalInvocationID.xy);
    if (here.x >= tiles.x || here.y >= turned.x) {
        return;
    }
    int index = here.y * tiles.x + here.x;
    counts[index] = is_wide ? uint(tile) : uint(tiles.y);
}
