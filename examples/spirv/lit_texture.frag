#version 450
// A lit texture, into two targets.
layout(set = 0, binding = 0) uniform sampler2D albedo;
layout(set = 0, binding = 2) uniform Light {
    vec3 direction;
    float ambient;
    vec3 color;
    int is_on;
} light;

layout(location = 0) in vec3 normal;
layout(location = 1) in vec2 uv;
layout(location = 0) out vec4 out_color;
layout(location = 1) out vec4 out_normal;

void main() {
    vec4 texel = texture(albedo, uv);
    vec3 n = normalize(normal);
    float lambert = max(dot(n, -light.direction), 0.0);
    vec3 lit = texel.rgb * (light.ambient + (light.is_on != 0 ? lambert : 0.0)) * light.color;
    out_color = vec4(pow(lit, vec3(1.0 / 2.2)), texel.a);
    out_normal = vec4(n * 0.5 + 0.5, 1.0);
}
