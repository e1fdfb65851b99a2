#version 450
// What goes between stages as a block, beside the block of built-ins; the vertices are made here.
layout(location = 0) out Surface {
    vec4 color;
    vec2 uv;
    flat int layer;
} surface;

layout(set = 0, binding = 1) uniform Tints {
    vec4 tint[8];
};

out gl_PerVertex {
    vec4 gl_Position;
    float gl_PointSize;
};

const vec2 corners[3] = vec2[](vec2(-1.0, -1.0), vec2(3.0, -1.0), vec2(-1.0, 3.0));

void main() {
    vec2 corner = corners[gl_VertexIndex % 3];
    surface.color = tint[gl_InstanceIndex % 8];
    surface.uv = corner * 0.5 + 0.5;
    surface.layer = gl_InstanceIndex;
    gl_Position = vec4(corner, 0.0, 1.0);
    gl_PointSize = 1.0;
}
