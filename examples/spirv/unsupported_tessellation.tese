#version 450
layout(triangles, equal_spacing) in;
layout(location = 0) patch in float height;

void main() {
    gl_Position = gl_TessCoord.x * gl_in[0].gl_Position + gl_TessCoord.y * gl_in[1].gl_Position + gl_TessCoord.z * gl_in[2].gl_Position;
    gl_Position.y += height;
}
