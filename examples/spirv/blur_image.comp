#version 450
// Blurs one storage image into another.
layout(local_size_x = 8, local_size_y = 8) in;
layout(set = 0, binding = 0, rgba8) uniform readonly image2D source;
layout(set = 0, binding = 1, rgba16f) uniform writeonly image2D target;
layout(set = 0, binding = 2) uniform Weights {
    float weight[9];
    int radius;
};

void main() {
    ivec2 size = imageSize(source);
    ivec2 here = ivec2(gl_GlobalInvocationID.xy);
    if (here.x >= size.x || here.y >= size.y) {
        return;
    }
    vec4 sum = vec4(0.0);
    for (int dx = -radius; dx <= radius; ++dx) {
        ivec2 at = ivec2(clamp(here.x + dx, 0, size.x - 1), here.y);
        sum += imageLoad(source, at) * weight[clamp(dx + 4, 0, 8)];
    }
    imageStore(target, here, sum);
}
