// Panning: what a panner does to a sound, by the formulas of the recommendation.

export const minus = (one, other) => one.map((term, axis) => term - other[axis]);
const times = (vector, factor) => vector.map(term => term * factor);
const dot = (one, other) => one.reduce((sum, term, axis) => sum + term * other[axis], 0);
export const sizeOf = vector => Math.hypot(...vector);
const cross = ([a, b, c], [x, y, z]) => [b * z - c * y, c * x - a * z, a * y - b * x];
const unit = vector => sizeOf(vector) > 0 ? times(vector, 1 / sizeOf(vector)) : vector;
const degrees = cosine => 180 * Math.acos(Math.min(1, Math.max(-1, cosine))) / Math.PI;
const clamp = (number, low, high) => Math.min(high, Math.max(low, number));

// What is ahead of, beside and above a listener, or null where forward and up are one direction.
export function facingOf({forward, up}) {
  const right = cross(forward, up), ahead = unit(forward), aside = unit(right);
  return sizeOf(right) === 0 ? null : {ahead, aside, above: cross(aside, ahead)};
}

// The azimuth of a source to a listener, in degrees from -180 to 180 ("Azimuth and Elevation").
export function azimuthOf(source, listener, facing = facingOf(listener)) {
  const direction = unit(minus(source, listener.position));
  if (sizeOf(direction) === 0 || !facing) return 0;
  const {ahead, aside, above} = facing;
  const flat = unit(minus(direction, times(above, dot(direction, above))));
  let azimuth = degrees(dot(flat, aside));
  if (dot(flat, ahead) < 0) azimuth = 360 - azimuth;
  return azimuth <= 270 ? 90 - azimuth : 450 - azimuth;
}

// How much of a sound its distance leaves ("Distance Effects").
export function distanceGain({distanceModel, refDistance, maxDistance, rolloffFactor}, distance) {
  const far = Math.max(distance, refDistance);
  if (distanceModel === 'linear') {
    const near = Math.min(refDistance, maxDistance), most = Math.max(refDistance, maxDistance), factor = clamp(rolloffFactor, 0, 1);
    return near === most ? 1 - factor : 1 - factor * (clamp(distance, near, most) - near) / (most - near);
  }
  if (refDistance === 0) return 0;
  return distanceModel === 'inverse' ? refDistance / (refDistance + rolloffFactor * (far - refDistance))
                                     : (far / refDistance) ** -rolloffFactor;
}

// The angle between where a source is turned to and where the listener is, in degrees, and 0 where it is turned nowhere.
export const coneAngle = (source, orientation, listener) => sizeOf(orientation) === 0 ? 0
  : degrees(dot(unit(minus(listener, source)), unit(orientation)));

// How much of a sound its cone leaves ("Sound Cones").
export function coneGain({coneInnerAngle, coneOuterAngle, coneOuterGain}, source, orientation, listener) {
  if (sizeOf(orientation) === 0 || (coneInnerAngle === 360 && coneOuterAngle === 360)) return 1;
  const angle = coneAngle(source, orientation, listener), inner = Math.abs(coneInnerAngle) / 2, outer = Math.abs(coneOuterAngle) / 2;
  if (angle <= inner) return 1;
  if (angle >= outer) return coneOuterGain;
  const part = (angle - inner) / (outer - inner);
  return 1 - part + coneOuterGain * part;
}

// Both gains at a place from 0 to 1.
const equalPower = place => [Math.cos(place * Math.PI / 2), Math.sin(place * Math.PI / 2)];

// The gains of a stereo panner: {left, right, isLeft}. Of two channels the side that is turned to keeps its own.
export function stereoGains(pan, isStereo) {
  const turned = clamp(pan, -1, 1);
  const [left, right] = equalPower(isStereo ? (turned <= 0 ? turned + 1 : turned) : (turned + 1) / 2);
  return {left, right, isLeft: turned <= 0};
}

// The same for an azimuth. What is behind is heard as its mirror image in front.
export function azimuthGains(azimuth, isStereo) {
  const turned = clamp(azimuth, -180, 180);
  const front = turned < -90 ? -180 - turned : turned > 90 ? 180 - turned : turned;
  return stereoGains(front / 90, isStereo);
}
