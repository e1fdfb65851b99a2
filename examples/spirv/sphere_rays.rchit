#version 460
// The color of what a ray hits, which is traced on towards the sun.
#extension GL_EXT_ray_tracing : require
layout(set = 0, binding = 0) uniform accelerationStructureEXT world;

layout(set = 0, binding = 3, std430) readonly buffer Materials {
    vec4 colors[];
};

layout(location = 0) rayPayloadInEXT vec4 light;

layout(location = 1) rayPayloadEXT vec4 shade;

void main() {
    vec3 hit = gl_WorldRayOriginEXT + gl_WorldRayDirectionEXT * gl_HitTEXT;
    vec3 normal = normalize(hit - gl_ObjectToWorldEXT * vec4(0.0, 0.0, 0.0, 1.0));
    vec4 color = colors[gl_InstanceCustomIndexEXT + gl_GeometryIndexEXT];
    shade = vec4(1.0);
    traceRayEXT(world, gl_RayFlagsTerminateOnFirstHitEXT, 0xFFu, 0u, 0u, 0u, hit, 0.01, normal, 100.0, 1);
    light = (gl_HitKindEXT == gl_HitKindFrontFacingTriangleEXT) ? color * shade : vec4(0.0);
}
