#version 450
// Bones out of a storage buffer, with what a draw pushes.
struct Bone {
    mat4 pose;
    vec4 offset;
};

layout(std430, set = 1, binding = 0) readonly buffer Bones {
    uint first;
    Bone bones[];
};

layout(push_constant) uniform Draw {
    mat4 model_view_projection;
    uint skeleton;
    float scale;
} draw;

layout(location = 0) in vec4 position;
layout(location = 1) in uvec4 indices;
layout(location = 2) in vec4 weights;
layout(location = 0) out float out_weight;

void main() {
    vec4 sum = vec4(0.0);
    float total = 0.0;
    for (int at = 0; at < 4; ++at) {
        if (weights[at] <= 0.0) {
            continue;
        }
        Bone bone = bones[first + draw.skeleton * 64u + indices[at]];
        sum += weights[at] * (bone.pose * position + bone.offset);
        total += weights[at];
    }
    if (total == 0.0) {
        sum = position;
    }
    out_weight = total;
    gl_Position = draw.model_view_projection * vec4(sum.xyz * draw.scale, 1.0);
}
