//! The names that made blocks and tallies draw from.

use crate::random::Random;

/// Names of a world without mods; the first four make the layers of the ground.
const POOL: [&str; 60] = [
    "default:stone",
    "default:dirt",
    "default:dirt_with_grass",
    "air",
    "default:water_source",
    "default:water_flowing",
    "default:river_water_source",
    "default:lava_source",
    "default:lava_flowing",
    "default:sand",
    "default:desert_sand",
    "default:silver_sand",
    "default:gravel",
    "default:clay",
    "default:cobble",
    "default:mossycobble",
    "default:desert_stone",
    "default:sandstone",
    "default:obsidian",
    "default:stone_with_coal",
    "default:stone_with_iron",
    "default:stone_with_copper",
    "default:stone_with_tin",
    "default:stone_with_gold",
    "default:stone_with_mese",
    "default:stone_with_diamond",
    "default:dirt_with_snow",
    "default:dirt_with_dry_grass",
    "default:dirt_with_coniferous_litter",
    "default:dirt_with_rainforest_litter",
    "default:permafrost",
    "default:snow",
    "default:snowblock",
    "default:ice",
    "default:tree",
    "default:leaves",
    "default:apple",
    "default:jungletree",
    "default:jungleleaves",
    "default:pine_tree",
    "default:pine_needles",
    "default:aspen_tree",
    "default:aspen_leaves",
    "default:acacia_tree",
    "default:acacia_leaves",
    "default:cactus",
    "default:papyrus",
    "default:dry_shrub",
    "default:junglegrass",
    "default:grass_1",
    "default:grass_3",
    "default:grass_5",
    "default:fern_2",
    "default:torch_wall",
    "default:chest",
    "default:wood",
    "flowers:rose",
    "flowers:mushroom_brown",
    "stairs:stair_cobble",
    "farming:cotton_wild",
];

const MODS: [&str; 16] = [
    "beds",
    "doors",
    "xpanes",
    "carts",
    "stairs",
    "farming",
    "flowers",
    "technic",
    "mesecons",
    "pipeworks",
    "homedecor",
    "moreblocks",
    "moretrees",
    "castle",
    "cottages",
    "bakedclay",
];

const WORDS: [&str; 16] = [
    "slope",
    "brick",
    "panel",
    "lamp_off",
    "stair",
    "micro",
    "corner",
    "fence",
    "window",
    "slab_inner",
    "planks",
    "tile_half",
    "trunk",
    "roof_tiles",
    "gate_closed",
    "carpet",
];

pub fn world_pool() -> Vec<Vec<u8>> {
    POOL.iter().map(|name| name.as_bytes().to_vec()).collect()
}

/// A name of 12 to 30 bytes, if the number has at most seven digits.
pub fn modded_name(random: &mut Random, number: usize) -> Vec<u8> {
    let (place, word) = (random.below(MODS.len()), random.below(WORDS.len()));
    format!("{}:{}_{}", MODS[place], WORDS[word], number).into_bytes()
}

/// The four layers of the ground, and names of some 25 bytes.
pub fn modded_pool(random: &mut Random, count: usize) -> Vec<Vec<u8>> {
    let layers = POOL[..4].iter().map(|name| name.as_bytes().to_vec());
    layers
        .chain((4..count).map(|number| modded_name(random, 100_000_000 + number)))
        .collect()
}
