// Which points of a surface a light reaches, by ray queries: any hit of a ray from the point to the light is a shadow.

enable wgpu_ray_query;

struct Light {
    position: vec3<f32>,
    radius: f32,
}

@group(0) @binding(0) var scene: acceleration_structure;
@group(0) @binding(1) var<uniform> light: Light;
@group(0) @binding(2) var<storage, read> points: array<vec4<f32>>;
@group(0) @binding(3) var<storage, read_write> lit: array<f32>;

fn distance_to_hit(ray: RayDesc) -> f32 {
    var query: ray_query;
    rayQueryInitialize(&query, scene, ray);
    while rayQueryProceed(&query) {
        let candidate = rayQueryGetCandidateIntersection(&query);
        if candidate.kind == RAY_QUERY_INTERSECTION_AABB {
            rayQueryGenerateIntersection(&query, candidate.t);
        } else if candidate.front_face {
            rayQueryConfirmIntersection(&query);
        }
    }
    let hit = rayQueryGetCommittedIntersection(&query);
    if hit.kind == RAY_QUERY_INTERSECTION_NONE {
        return ray.tmax;
    }
    return hit.t;
}

@compute @workgroup_size(64)
fn trace(@builtin(global_invocation_id) id: vec3<u32>) {
    if id.x >= arrayLength(&points) { return; }
    let start = points[id.x].xyz;
    let to_light = light.position - start;
    let far = length(to_light) - light.radius;
    let flags = RAY_FLAG_TERMINATE_ON_FIRST_HIT | RAY_FLAG_CULL_NO_OPAQUE;
    let reached = distance_to_hit(RayDesc(flags, 0xffu, 0.01, far, start, normalize(to_light)));
    lit[id.x] = select(0.0, 1.0, reached >= far);
}
