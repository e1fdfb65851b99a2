#version 460
// Which points of a height field see the sun, and how far away what hides it is.
#extension GL_EXT_ray_query : require
layout(local_size_x = 8, local_size_y = 8) in;

layout(set = 0, binding = 0) uniform accelerationStructureEXT world;

layout(set = 0, binding = 1, r32f) uniform writeonly image2D shadows;

layout(set = 0, binding = 2, std430) readonly buffer Heights {
    vec4 sun;
    uint width;
    float heights[];
};

layout(set = 0, binding = 3, std430) buffer Hits {
    uint count;
    uvec4 last;
    vec2 corner;
    mat4x3 place;
} hits;

bool is_solid(uint instance, int custom) {
    return (uint(custom) & 1u) == 0u && instance != 7u;
}

float hidden_at(vec3 from, vec3 towards) {
    rayQueryEXT query;
    rayQueryInitializeEXT(query, world, gl_RayFlagsTerminateOnFirstHitEXT, 0xFFu, from, 0.01, towards, 1000.0);
    while (rayQueryProceedEXT(query)) {
        uint kind = rayQueryGetIntersectionTypeEXT(query, false);
        if (kind == gl_RayQueryCandidateIntersectionTriangleEXT) {
            if (is_solid(uint(rayQueryGetIntersectionInstanceIdEXT(query, false)), rayQueryGetIntersectionInstanceCustomIndexEXT(query, false))) {
                rayQueryConfirmIntersectionEXT(query);
            }
        } else {
            rayQueryGenerateIntersectionEXT(query, 5.0);
        }
    }
    if (rayQueryGetIntersectionTypeEXT(query, true) == gl_RayQueryCommittedIntersectionNoneEXT) {
        return -1.0;
    }
    hits.corner = rayQueryGetIntersectionBarycentricsEXT(query, true);
    hits.place = rayQueryGetIntersectionObjectToWorldEXT(query, true);
    hits.last = uvec4(
        rayQueryGetIntersectionGeometryIndexEXT(query, true),
        rayQueryGetIntersectionPrimitiveIndexEXT(query, true),
        rayQueryGetIntersectionInstanceShaderBindingTableRecordOffsetEXT(query, true),
        rayQueryGetIntersectionFrontFaceEXT(query, true) ? 1u : 0u);
    return rayQueryGetIntersectionTEXT(query, true);
}

void main() {
    uvec2 at = gl_GlobalInvocationID.xy;
    float height = heights[at.y * width + at.x];
    float distance = hidden_at(vec3(vec2(at), height), sun.xyz);
    if (distance >= 0.0) {
        atomicAdd(hits.count, 1u);
    }
    imageStore(shadows, ivec2(at), vec4(distance, 0.0, 0.0, 0.0));
}
