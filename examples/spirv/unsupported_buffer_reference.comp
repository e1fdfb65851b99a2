#version 450
#extension GL_EXT_buffer_reference : require
layout(local_size_x = 64) in;
layout(buffer_reference, std430) buffer Numbers {
    uint values[];
};
layout(push_constant) uniform Push {
    Numbers numbers;
};

void main() {
    numbers.values[gl_GlobalInvocationID.x] += 1u;
}
