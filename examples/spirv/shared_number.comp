#version 450
// The size of the workgroup is a constant that the shader reads, too: both have the number 3.
layout(local_size_x_id = 3) in;
layout(constant_id = 3) const uint WIDTH = 1;
layout(std430, set = 0, binding = 0) buffer Rows {
    uint rows[];
};

void main() {
    rows[gl_GlobalInvocationID.x] = gl_WorkGroupID.x * WIDTH;
}
