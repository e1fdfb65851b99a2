#version 450
// A stage that the IR does not have: said before all that is met in it.
layout(points) in;
layout(line_strip, max_vertices = 2) out;
layout(location = 0) in vec4 velocity[];
layout(location = 0) out vec4 color;

void main() {
    color = vec4(1.0);
    gl_Position = gl_in[0].gl_Position;
    EmitVertex();
    gl_Position = gl_in[0].gl_Position + velocity[0];
    EmitVertex();
    EndPrimitive();
}
