// Particles that fall and bounce off the ground; each workgroup also sums the energy of its own.

struct Particle {
    position: vec3<f32>,
    mass: f32,
    velocity: vec3<f32>,
    bounces: u32,
}

struct Settings {
    gravity: vec3<f32>,
    step: f32,
    count: u32,
}

const GROUP_SIZE = 64u;
const DAMPING: f32 = 0.8;

@group(0) @binding(0) var<uniform> settings: Settings;
@group(0) @binding(1) var<storage, read_write> particles: array<Particle>;
@group(0) @binding(2) var<storage, read_write> energies: array<f32>;

var<workgroup> sums: array<f32, GROUP_SIZE>;

fn kinetic_energy(particle: Particle) -> f32 {
    return 0.5 * particle.mass * dot(particle.velocity, particle.velocity);
}

fn bounce(particle: ptr<function, Particle>) {
    if (*particle).position.y < 0.0 {
        (*particle).position.y = -(*particle).position.y;
        (*particle).velocity = reflect((*particle).velocity, vec3(0.0, 1.0, 0.0)) * DAMPING;
        (*particle).bounces += 1;
    }
}

@compute @workgroup_size(GROUP_SIZE)
fn update(
    @builtin(global_invocation_id) id: vec3<u32>,
    @builtin(local_invocation_index) local: u32,
    @builtin(workgroup_id) group: vec3<u32>,
) {
    let index = id.x;
    var energy = 0.0;
    if index < settings.count && index < arrayLength(&particles) {
        var particle = particles[index];
        particle.velocity += settings.gravity * settings.step;
        particle.position += particle.velocity * settings.step;
        bounce(&particle);
        energy = kinetic_energy(particle);
        particles[index] = particle;
    }
    sums[local] = energy;
    workgroupBarrier();
    for (var stride = GROUP_SIZE / 2; stride > 0; stride /= 2) {
        if local < stride {
            sums[local] += sums[local + stride];
        }
        workgroupBarrier();
    }
    if local == 0 {
        energies[group.x] = sums[0];
    }
}
