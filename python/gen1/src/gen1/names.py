"""Species, moves, types and codes by name. Made by tools/gen; change what it reads, not this."""

from enum import EnumMeta, IntEnum, IntFlag


class NamedType(EnumMeta):
    """The type of these classes: `dir` and `help` list members, not int."""

    def __dir__(cls) -> list[str]:
        known = [it for base in cls.__mro__ if isinstance(base, NamedType) for it in vars(base)]
        return [*dict.fromkeys([*cls.__members__, *(it for it in known if not it.startswith("_"))])]


class Named(IntEnum, metaclass=NamedType):
    """A number of the library with a text for people.

    `label` is the name as lines and tables print it ("Mr. Mime"), of a
    code what it says ("the level is not 1 to 100"). A format that ends in
    a number's type (`d`, `02x`) formats the number, any other the label,
    by every Python alike.
    """

    label: str

    def __new__(cls, number: int, label: str = "") -> "Named":
        made = int.__new__(cls, number)
        made._value_ = number
        made.label = label
        return made

    def __repr__(self) -> str:
        return f"{type(self).__name__}.{self.name}"

    def __str__(self) -> str:
        return self.label

    def __format__(self, spec: str) -> str:
        return format(int(self) if spec and spec[-1] in "bcdeEfFgGnoxX%" else self.label, spec)


class Species(Named):
    """A species, 1 to 151 (docs/TABLES.md, "Species")."""

    BULBASAUR = 1, "Bulbasaur"
    IVYSAUR = 2, "Ivysaur"
    VENUSAUR = 3, "Venusaur"
    CHARMANDER = 4, "Charmander"
    CHARMELEON = 5, "Charmeleon"
    CHARIZARD = 6, "Charizard"
    SQUIRTLE = 7, "Squirtle"
    WARTORTLE = 8, "Wartortle"
    BLASTOISE = 9, "Blastoise"
    CATERPIE = 10, "Caterpie"
    METAPOD = 11, "Metapod"
    BUTTERFREE = 12, "Butterfree"
    WEEDLE = 13, "Weedle"
    KAKUNA = 14, "Kakuna"
    BEEDRILL = 15, "Beedrill"
    PIDGEY = 16, "Pidgey"
    PIDGEOTTO = 17, "Pidgeotto"
    PIDGEOT = 18, "Pidgeot"
    RATTATA = 19, "Rattata"
    RATICATE = 20, "Raticate"
    SPEAROW = 21, "Spearow"
    FEAROW = 22, "Fearow"
    EKANS = 23, "Ekans"
    ARBOK = 24, "Arbok"
    PIKACHU = 25, "Pikachu"
    RAICHU = 26, "Raichu"
    SANDSHREW = 27, "Sandshrew"
    SANDSLASH = 28, "Sandslash"
    NIDORAN_F = 29, "Nidoran-F"
    NIDORINA = 30, "Nidorina"
    NIDOQUEEN = 31, "Nidoqueen"
    NIDORAN_M = 32, "Nidoran-M"
    NIDORINO = 33, "Nidorino"
    NIDOKING = 34, "Nidoking"
    CLEFAIRY = 35, "Clefairy"
    CLEFABLE = 36, "Clefable"
    VULPIX = 37, "Vulpix"
    NINETALES = 38, "Ninetales"
    JIGGLYPUFF = 39, "Jigglypuff"
    WIGGLYTUFF = 40, "Wigglytuff"
    ZUBAT = 41, "Zubat"
    GOLBAT = 42, "Golbat"
    ODDISH = 43, "Oddish"
    GLOOM = 44, "Gloom"
    VILEPLUME = 45, "Vileplume"
    PARAS = 46, "Paras"
    PARASECT = 47, "Parasect"
    VENONAT = 48, "Venonat"
    VENOMOTH = 49, "Venomoth"
    DIGLETT = 50, "Diglett"
    DUGTRIO = 51, "Dugtrio"
    MEOWTH = 52, "Meowth"
    PERSIAN = 53, "Persian"
    PSYDUCK = 54, "Psyduck"
    GOLDUCK = 55, "Golduck"
    MANKEY = 56, "Mankey"
    PRIMEAPE = 57, "Primeape"
    GROWLITHE = 58, "Growlithe"
    ARCANINE = 59, "Arcanine"
    POLIWAG = 60, "Poliwag"
    POLIWHIRL = 61, "Poliwhirl"
    POLIWRATH = 62, "Poliwrath"
    ABRA = 63, "Abra"
    KADABRA = 64, "Kadabra"
    ALAKAZAM = 65, "Alakazam"
    MACHOP = 66, "Machop"
    MACHOKE = 67, "Machoke"
    MACHAMP = 68, "Machamp"
    BELLSPROUT = 69, "Bellsprout"
    WEEPINBELL = 70, "Weepinbell"
    VICTREEBEL = 71, "Victreebel"
    TENTACOOL = 72, "Tentacool"
    TENTACRUEL = 73, "Tentacruel"
    GEODUDE = 74, "Geodude"
    GRAVELER = 75, "Graveler"
    GOLEM = 76, "Golem"
    PONYTA = 77, "Ponyta"
    RAPIDASH = 78, "Rapidash"
    SLOWPOKE = 79, "Slowpoke"
    SLOWBRO = 80, "Slowbro"
    MAGNEMITE = 81, "Magnemite"
    MAGNETON = 82, "Magneton"
    FARFETCHD = 83, "Farfetchd"
    DODUO = 84, "Doduo"
    DODRIO = 85, "Dodrio"
    SEEL = 86, "Seel"
    DEWGONG = 87, "Dewgong"
    GRIMER = 88, "Grimer"
    MUK = 89, "Muk"
    SHELLDER = 90, "Shellder"
    CLOYSTER = 91, "Cloyster"
    GASTLY = 92, "Gastly"
    HAUNTER = 93, "Haunter"
    GENGAR = 94, "Gengar"
    ONIX = 95, "Onix"
    DROWZEE = 96, "Drowzee"
    HYPNO = 97, "Hypno"
    KRABBY = 98, "Krabby"
    KINGLER = 99, "Kingler"
    VOLTORB = 100, "Voltorb"
    ELECTRODE = 101, "Electrode"
    EXEGGCUTE = 102, "Exeggcute"
    EXEGGUTOR = 103, "Exeggutor"
    CUBONE = 104, "Cubone"
    MAROWAK = 105, "Marowak"
    HITMONLEE = 106, "Hitmonlee"
    HITMONCHAN = 107, "Hitmonchan"
    LICKITUNG = 108, "Lickitung"
    KOFFING = 109, "Koffing"
    WEEZING = 110, "Weezing"
    RHYHORN = 111, "Rhyhorn"
    RHYDON = 112, "Rhydon"
    CHANSEY = 113, "Chansey"
    TANGELA = 114, "Tangela"
    KANGASKHAN = 115, "Kangaskhan"
    HORSEA = 116, "Horsea"
    SEADRA = 117, "Seadra"
    GOLDEEN = 118, "Goldeen"
    SEAKING = 119, "Seaking"
    STARYU = 120, "Staryu"
    STARMIE = 121, "Starmie"
    MR_MIME = 122, "Mr. Mime"
    SCYTHER = 123, "Scyther"
    JYNX = 124, "Jynx"
    ELECTABUZZ = 125, "Electabuzz"
    MAGMAR = 126, "Magmar"
    PINSIR = 127, "Pinsir"
    TAUROS = 128, "Tauros"
    MAGIKARP = 129, "Magikarp"
    GYARADOS = 130, "Gyarados"
    LAPRAS = 131, "Lapras"
    DITTO = 132, "Ditto"
    EEVEE = 133, "Eevee"
    VAPOREON = 134, "Vaporeon"
    JOLTEON = 135, "Jolteon"
    FLAREON = 136, "Flareon"
    PORYGON = 137, "Porygon"
    OMANYTE = 138, "Omanyte"
    OMASTAR = 139, "Omastar"
    KABUTO = 140, "Kabuto"
    KABUTOPS = 141, "Kabutops"
    AERODACTYL = 142, "Aerodactyl"
    SNORLAX = 143, "Snorlax"
    ARTICUNO = 144, "Articuno"
    ZAPDOS = 145, "Zapdos"
    MOLTRES = 146, "Moltres"
    DRATINI = 147, "Dratini"
    DRAGONAIR = 148, "Dragonair"
    DRAGONITE = 149, "Dragonite"
    MEWTWO = 150, "Mewtwo"
    MEW = 151, "Mew"


class Move(Named):
    """A move, 1 to 165 (docs/TABLES.md, "Moves")."""

    POUND = 1, "Pound"
    KARATE_CHOP = 2, "Karate Chop"
    DOUBLE_SLAP = 3, "Double Slap"
    COMET_PUNCH = 4, "Comet Punch"
    MEGA_PUNCH = 5, "Mega Punch"
    PAY_DAY = 6, "Pay Day"
    FIRE_PUNCH = 7, "Fire Punch"
    ICE_PUNCH = 8, "Ice Punch"
    THUNDER_PUNCH = 9, "Thunder Punch"
    SCRATCH = 10, "Scratch"
    VICE_GRIP = 11, "Vice Grip"
    GUILLOTINE = 12, "Guillotine"
    RAZOR_WIND = 13, "Razor Wind"
    SWORDS_DANCE = 14, "Swords Dance"
    CUT = 15, "Cut"
    GUST = 16, "Gust"
    WING_ATTACK = 17, "Wing Attack"
    WHIRLWIND = 18, "Whirlwind"
    FLY = 19, "Fly"
    BIND = 20, "Bind"
    SLAM = 21, "Slam"
    VINE_WHIP = 22, "Vine Whip"
    STOMP = 23, "Stomp"
    DOUBLE_KICK = 24, "Double Kick"
    MEGA_KICK = 25, "Mega Kick"
    JUMP_KICK = 26, "Jump Kick"
    ROLLING_KICK = 27, "Rolling Kick"
    SAND_ATTACK = 28, "Sand Attack"
    HEADBUTT = 29, "Headbutt"
    HORN_ATTACK = 30, "Horn Attack"
    FURY_ATTACK = 31, "Fury Attack"
    HORN_DRILL = 32, "Horn Drill"
    TACKLE = 33, "Tackle"
    BODY_SLAM = 34, "Body Slam"
    WRAP = 35, "Wrap"
    TAKE_DOWN = 36, "Take Down"
    THRASH = 37, "Thrash"
    DOUBLE_EDGE = 38, "Double-Edge"
    TAIL_WHIP = 39, "Tail Whip"
    POISON_STING = 40, "Poison Sting"
    TWINEEDLE = 41, "Twineedle"
    PIN_MISSILE = 42, "Pin Missile"
    LEER = 43, "Leer"
    BITE = 44, "Bite"
    GROWL = 45, "Growl"
    ROAR = 46, "Roar"
    SING = 47, "Sing"
    SUPERSONIC = 48, "Supersonic"
    SONIC_BOOM = 49, "Sonic Boom"
    DISABLE = 50, "Disable"
    ACID = 51, "Acid"
    EMBER = 52, "Ember"
    FLAMETHROWER = 53, "Flamethrower"
    MIST = 54, "Mist"
    WATER_GUN = 55, "Water Gun"
    HYDRO_PUMP = 56, "Hydro Pump"
    SURF = 57, "Surf"
    ICE_BEAM = 58, "Ice Beam"
    BLIZZARD = 59, "Blizzard"
    PSYBEAM = 60, "Psybeam"
    BUBBLE_BEAM = 61, "Bubble Beam"
    AURORA_BEAM = 62, "Aurora Beam"
    HYPER_BEAM = 63, "Hyper Beam"
    PECK = 64, "Peck"
    DRILL_PECK = 65, "Drill Peck"
    SUBMISSION = 66, "Submission"
    LOW_KICK = 67, "Low Kick"
    COUNTER = 68, "Counter"
    SEISMIC_TOSS = 69, "Seismic Toss"
    STRENGTH = 70, "Strength"
    ABSORB = 71, "Absorb"
    MEGA_DRAIN = 72, "Mega Drain"
    LEECH_SEED = 73, "Leech Seed"
    GROWTH = 74, "Growth"
    RAZOR_LEAF = 75, "Razor Leaf"
    SOLAR_BEAM = 76, "Solar Beam"
    POISON_POWDER = 77, "Poison Powder"
    STUN_SPORE = 78, "Stun Spore"
    SLEEP_POWDER = 79, "Sleep Powder"
    PETAL_DANCE = 80, "Petal Dance"
    STRING_SHOT = 81, "String Shot"
    DRAGON_RAGE = 82, "Dragon Rage"
    FIRE_SPIN = 83, "Fire Spin"
    THUNDER_SHOCK = 84, "Thunder Shock"
    THUNDERBOLT = 85, "Thunderbolt"
    THUNDER_WAVE = 86, "Thunder Wave"
    THUNDER = 87, "Thunder"
    ROCK_THROW = 88, "Rock Throw"
    EARTHQUAKE = 89, "Earthquake"
    FISSURE = 90, "Fissure"
    DIG = 91, "Dig"
    TOXIC = 92, "Toxic"
    CONFUSION = 93, "Confusion"
    PSYCHIC = 94, "Psychic"
    HYPNOSIS = 95, "Hypnosis"
    MEDITATE = 96, "Meditate"
    AGILITY = 97, "Agility"
    QUICK_ATTACK = 98, "Quick Attack"
    RAGE = 99, "Rage"
    TELEPORT = 100, "Teleport"
    NIGHT_SHADE = 101, "Night Shade"
    MIMIC = 102, "Mimic"
    SCREECH = 103, "Screech"
    DOUBLE_TEAM = 104, "Double Team"
    RECOVER = 105, "Recover"
    HARDEN = 106, "Harden"
    MINIMIZE = 107, "Minimize"
    SMOKESCREEN = 108, "Smokescreen"
    CONFUSE_RAY = 109, "Confuse Ray"
    WITHDRAW = 110, "Withdraw"
    DEFENSE_CURL = 111, "Defense Curl"
    BARRIER = 112, "Barrier"
    LIGHT_SCREEN = 113, "Light Screen"
    HAZE = 114, "Haze"
    REFLECT = 115, "Reflect"
    FOCUS_ENERGY = 116, "Focus Energy"
    BIDE = 117, "Bide"
    METRONOME = 118, "Metronome"
    MIRROR_MOVE = 119, "Mirror Move"
    SELF_DESTRUCT = 120, "Self-Destruct"
    EGG_BOMB = 121, "Egg Bomb"
    LICK = 122, "Lick"
    SMOG = 123, "Smog"
    SLUDGE = 124, "Sludge"
    BONE_CLUB = 125, "Bone Club"
    FIRE_BLAST = 126, "Fire Blast"
    WATERFALL = 127, "Waterfall"
    CLAMP = 128, "Clamp"
    SWIFT = 129, "Swift"
    SKULL_BASH = 130, "Skull Bash"
    SPIKE_CANNON = 131, "Spike Cannon"
    CONSTRICT = 132, "Constrict"
    AMNESIA = 133, "Amnesia"
    KINESIS = 134, "Kinesis"
    SOFT_BOILED = 135, "Soft-Boiled"
    HIGH_JUMP_KICK = 136, "High Jump Kick"
    GLARE = 137, "Glare"
    DREAM_EATER = 138, "Dream Eater"
    POISON_GAS = 139, "Poison Gas"
    BARRAGE = 140, "Barrage"
    LEECH_LIFE = 141, "Leech Life"
    LOVELY_KISS = 142, "Lovely Kiss"
    SKY_ATTACK = 143, "Sky Attack"
    TRANSFORM = 144, "Transform"
    BUBBLE = 145, "Bubble"
    DIZZY_PUNCH = 146, "Dizzy Punch"
    SPORE = 147, "Spore"
    FLASH = 148, "Flash"
    PSYWAVE = 149, "Psywave"
    SPLASH = 150, "Splash"
    ACID_ARMOR = 151, "Acid Armor"
    CRABHAMMER = 152, "Crabhammer"
    EXPLOSION = 153, "Explosion"
    FURY_SWIPES = 154, "Fury Swipes"
    BONEMERANG = 155, "Bonemerang"
    REST = 156, "Rest"
    ROCK_SLIDE = 157, "Rock Slide"
    HYPER_FANG = 158, "Hyper Fang"
    SHARPEN = 159, "Sharpen"
    CONVERSION = 160, "Conversion"
    TRI_ATTACK = 161, "Tri Attack"
    SUPER_FANG = 162, "Super Fang"
    SLASH = 163, "Slash"
    SUBSTITUTE = 164, "Substitute"
    STRUGGLE = 165, "Struggle"


class Type(Named):
    """A type, 0 to 14."""

    NORMAL = 0, "Normal"
    FIGHTING = 1, "Fighting"
    FLYING = 2, "Flying"
    POISON = 3, "Poison"
    GROUND = 4, "Ground"
    ROCK = 5, "Rock"
    BUG = 6, "Bug"
    GHOST = 7, "Ghost"
    FIRE = 8, "Fire"
    WATER = 9, "Water"
    GRASS = 10, "Grass"
    ELECTRIC = 11, "Electric"
    PSYCHIC = 12, "Psychic"
    ICE = 13, "Ice"
    DRAGON = 14, "Dragon"


class Status(Named):
    """What ails a member; 0 is nothing."""

    NONE = 0, "none"
    SLEEP = 1, "sleep"
    POISON = 2, "poison"
    BURN = 3, "burn"
    FREEZE = 4, "freeze"
    PARALYSIS = 5, "paralysis"


class Stat(Named):
    """A stat with stages."""

    ATTACK = 1, "Attack"
    DEFENSE = 2, "Defense"
    SPEED = 3, "Speed"
    SPECIAL = 4, "Special"
    ACCURACY = 5, "Accuracy"
    EVASION = 6, "Evasion"


class Reason(Named):
    """Why a member could not act, of `CantEvent`."""

    ASLEEP = 1, "Asleep"
    FROZEN = 2, "Frozen"
    PARTIALLY_TRAPPED = 3, "Partially Trapped"
    FLINCHED = 4, "Flinched"
    RECHARGING = 5, "Recharging"
    DISABLED = 6, "Disabled"
    PARALYSED = 7, "Paralysed"


class Source(Named):
    """What dealt damage, of `DamageEvent`."""

    DIRECT = 0, "Direct"
    POISON = 1, "Poison"
    BURN = 2, "Burn"
    LEECH_SEED = 3, "Leech Seed"
    RECOIL = 4, "Recoil"
    CONFUSION = 5, "Confusion"


class Volatile(Named):
    """What started, ended or was activated."""

    CONFUSION = 1, "Confusion"
    BIDE = 2, "Bide"
    SUBSTITUTE = 3, "Substitute"
    LEECH_SEED = 4, "Leech Seed"
    MIST = 5, "Mist"
    FOCUS_ENERGY = 6, "Focus Energy"
    LIGHT_SCREEN = 7, "Light Screen"
    REFLECT = 8, "Reflect"
    DISABLE = 9, "Disable"
    TYPE_CHANGE = 10, "Type Change"
    TRAPPED = 11, "Trapped"
    RAGE = 12, "Rage"
    SPLASH = 13, "Splash"


class Conditions(IntFlag, metaclass=NamedType):
    """What an active is under, added up (docs/LAYOUT.md, "Condition bits")."""

    NONE = 0
    BIDE = 1
    THRASH = 2
    TRAPPING = 4
    FLINCH = 8
    CHARGING = 16
    INVULNERABLE = 32
    CONFUSED = 64
    MIST = 128
    FOCUS_ENERGY = 256
    SUBSTITUTE = 512
    RECHARGE = 1024
    RAGE = 2048
    SEEDED = 4096
    BAD_POISON = 8192
    LIGHT_SCREEN = 16384
    REFLECT = 32768
    DISABLED = 65536


class Outcome(Named):
    """How a battle stands, of `Result.outcome`."""

    ONGOING = 0, "ongoing"
    WIN_ONE = 1, "win one"
    WIN_TWO = 2, "win two"
    TIE = 3, "tie"
    FAULT_ONE = 4, "fault one"
    FAULT_TWO = 5, "fault two"


class Request(Named):
    """What a side is asked for the next update, of `Result.requests`."""

    NOTHING = 0, "nothing"
    MOVE = 1, "move"
    SWITCH = 2, "switch"


class NewFault(Named):
    """Why teams or terms are refused, of `BadTeam.code`."""

    EMPTY = 1, "the team has no member"
    TOO_MANY = 2, "the team has more than six members"
    LEVEL = 3, "the level is not 1 to 100"
    DV = 4, "a DV is above 15"
    NO_MOVE = 5, "the member has no move"
    MOVE_LEFT_OUT = 6, "a move is one of the four that the engine leaves out"
    STRUGGLE = 7, "a move is Struggle"
    REPEATED_MOVE = 8, "a move is repeated"
    PP_UPS = 9, "a move has more than three PP ups"
    NO_SUCH_SPECIES = 10, "the species is not 1 to 151"
    NO_SUCH_MOVE = 11, "a move is not 1 to 165"
    RULES = 12, "the rules are above 3"
    TURN_LIMIT = 13, "the limit is not 1 to 9,999"


class LoadFault(Named):
    """The first test that bytes fail (docs/LAYOUT.md, "Loading"), of
    `BadBytes.code`.
    """

    LENGTH = 16, "length"
    VERSION = 17, "version"
    HEADER = 18, "header"
    MEMBER = 19, "member"
    ACTIVE = 20, "active"
    STAT = 21, "stat"
    REQUEST = 22, "request"


class Refusal(Named):
    """Why an update was refused, of `Refused.code`."""

    OVER = 24, "the battle is over"
    NOT_OFFERED_ONE = 25, "side 1's choice was not offered (and perhaps not side 2's either)"
    NOT_OFFERED_TWO = 26, "side 2's choice was not offered"


class RoomRefusal(Named):
    """Why a room refused a choice, of `RoomRefused.code`."""

    OVER = 24, "the battle is over"
    STALE = 52, "the number is not that of the current pair"
    CHOSEN = 53, "the side has already chosen"
    NOT_OFFERED = 54, "the choice is not offered to the side"


class HostRefusal(Named):
    """Why a host refused a row, of `HostRefused.code`."""

    OVER = 24, "the battle is over"
    STALE = 52, "the number is not that of the current pair"
    CHOSEN = 53, "the side has already chosen"
    NOT_OFFERED = 54, "the choice is not offered to the side"
    NO_CANCEL = 55, "the host does not let a side take its choice back"
    NOTHING_CHOSEN = 56, "the side has made no choice that it could take back"


class HostFault(Named):
    """The first test that bytes of a host fail, of `BadHost.code`."""

    NUMBER = 80, "the number leaves no place for the pairs that may still come"
    LOG = 81, "the log has more than 512 bytes, or is no log"
    CHOICE_ONE = 82, "side 1's choice is not offered, or is missing though nothing is asked"
    CHOICE_TWO = 83, "side 2's choice is not offered, or is missing though nothing is asked"
    CHOICES = 84, "both choices are there while the battle continues"
    TELLER_ONE = 85, "the teller of side 1 is another's, or its places are out of order"
    TELLER_TWO = 86, "the teller of side 2 is another's, its places are out of order, or its form of HP differs"
    ENDING = 87, "the ending is above 3"
    DRAW = 88, "the side that offers a draw is above 2"
    RULES = 89, "an option is above 1"
    UNUSED = 90, "an unused byte, or the forfeit of the room, is not 0"


class GuessFault(Named):
    """Why a guess of what a player can't know does not fit."""

    NOT_GOING_ON = 96, "the player is in no battle that has begun and is not over"
    COUNT = 97, "the guessed team does not have as many members as the foe"
    MEMBER = 98, "a member of the guessed team is not the one that appeared"
    MOVE = 99, "a member of the guessed team does not know a move that it was seen to use"
    HP = 100, "the maximum HP of a member of the guessed team does not allow the HP that the player was told"


class RowKind(Named):
    """What happens at a host, of `Row.kind`."""

    SUBMIT = 1, "submit"
    CANCEL = 2, "cancel"
    EXPIRE = 3, "expire"
    OFFER_DRAW = 4, "offer draw"
    FORFEIT = 5, "forfeit"


class EventKind(Named):
    """Which event of a log, of `Event.kind`."""

    TURN = 1, "turn"
    SWITCHED = 2, "switched"
    MOVED = 3, "moved"
    CANT = 4, "cant"
    DAMAGE = 5, "damage"
    HEAL = 6, "heal"
    CRIT = 7, "crit"
    SUPER_EFFECTIVE = 8, "super effective"
    RESISTED = 9, "resisted"
    IMMUNE = 10, "immune"
    MISS = 11, "miss"
    FAIL = 12, "fail"
    STATUS = 13, "status"
    CURE = 14, "cure"
    BOOST = 15, "boost"
    UNBOOST = 16, "unboost"
    CLEAR_ALL = 17, "clear all"
    START = 18, "start"
    END = 19, "end"
    ACTIVATE = 20, "activate"
    PREPARE = 21, "prepare"
    MUST_RECHARGE = 22, "must recharge"
    HIT_COUNT = 23, "hit count"
    ONE_HIT = 24, "one hit"
    FAINT = 25, "faint"
    WIN = 26, "win"
    TIED = 27, "tied"
    FAULT = 28, "fault"


class LogFault(Named):
    """Why bytes are not a log, of `BadLog.code`."""

    TAG = 32, "unknown event tag"
    FIELD = 33, "a field of an event is out of range"
    CUT = 34, "the bytes end within an event"


class TextFault(Named):
    """What was expected in a text of a team, of `BadText.code`."""

    SPECIES = 64, "the name of a species of the first generation"
    ITEM = 65, "no item: the first generation has no items"
    SEVENTH_MEMBER = 66, "at most six members"
    LEVEL = 67, "a level from 1 to 100"
    EVS = 68, 'EVs from 0 to 255, such as "252 HP / 4 Atk", or packed "252,4,,,,"'
    SPECIAL_EVS = 69, "the same EVs for SpA and SpD: the first generation has one Special"
    IVS = 70, 'IVs from 0 to 31, such as "14 HP / 0 Atk", or packed "14,0,,,,"'
    SPECIAL_IVS = 71, "the same IVs for SpA and SpD"
    HP_IV = 72, "the HP IV that follows from the others, or none"
    MOVE = 73, "the name of a move of the first generation"
    FIFTH_MOVE = 74, "at most four moves"
    LINE = 75, 'a line of a member, such as "Level: 50", "EVs: 252 HP", "IVs: 0 Atk" or "- Body Slam"'
    FIELDS = 76, "packed: twelve fields separated by `|`"
    TEAM = 77, "members that form a valid team: `rule` has the code of the error, `member` the member"


class DamageFault(Named):
    """Why a move deals no damage, of `NoDamage.code`."""

    SIDE = 40, "the side is neither 1 nor 2"
    MOVE = 11, "a move is not 1 to 165"
    UNUSUAL = 48, "the move does not have the usual damage: it has no power, or its own damage rule"
    DIVISOR = 49, "the damage would be divided by 0: the defense that counts in this hit is 0"
    NOBODY = 50, "no member is out: the battle is before its first update"


class Effect(Named):
    """What a move does besides its damage (docs/TABLES.md, "Effects"), of
    `MoveData.effect`.
    """

    DAMAGE_ONLY = 0, "damage only"
    ALWAYS_FAILS = 1, "always fails"
    MULTI_HIT = 2, "multi hit"
    PAY_DAY = 3, "pay day"
    FREEZE_CHANCE = 4, "freeze chance"
    CHARGE = 5, "charge"
    CHARGE_INVULNERABLE = 6, "charge invulnerable"
    TRAPPING = 7, "trapping"
    ONE_HIT_KNOCK_OUT = 8, "one hit knock out"
    DOUBLE_HIT = 9, "double hit"
    TWINEEDLE = 10, "twineedle"
    CRASH_ON_MISS = 11, "crash on miss"
    RECOIL = 12, "recoil"
    THRASH = 13, "thrash"
    INFLICT_SLEEP = 14, "inflict sleep"
    INFLICT_CONFUSION = 15, "inflict confusion"
    FIXED_DAMAGE = 16, "fixed damage"
    DISABLE = 17, "disable"
    MIST = 18, "mist"
    RECHARGE = 19, "recharge"
    COUNTER = 20, "counter"
    DRAIN = 21, "drain"
    LEECH_SEED = 22, "leech seed"
    INFLICT_POISON = 23, "inflict poison"
    INFLICT_PARALYSIS = 24, "inflict paralysis"
    RAGE = 25, "rage"
    LEFT_OUT = 26, "left out"
    HEAL = 27, "heal"
    SCREEN = 28, "screen"
    HAZE = 29, "haze"
    FOCUS_ENERGY = 30, "focus energy"
    BIDE = 31, "bide"
    EXPLODE = 32, "explode"
    NEVER_MISSES = 33, "never misses"
    DREAM_EATER = 34, "dream eater"
    SPLASH = 35, "splash"
    CONVERSION = 36, "conversion"
    SUPER_FANG = 37, "super fang"
    SUBSTITUTE = 38, "substitute"
    BURN_CHANCE = 39, "burn chance"
    PARALYSIS_CHANCE = 40, "paralysis chance"
    POISON_CHANCE = 41, "poison chance"
    FLINCH_CHANCE = 42, "flinch chance"
    CONFUSION_CHANCE = 43, "confusion chance"
    STAT_DOWN_CHANCE = 44, "stat down chance"
    STAT_UP = 45, "stat up"
    STAT_DOWN = 46, "stat down"


class AsleepBy(Named):
    """What put a member to sleep, of `Seen.asleep_by`."""

    MOVE = 1, "a move of the foe"
    REST = 2, "its own Rest"


class HpForm(Named):
    """How a foe's HP is reported, of `Teller` and `Host`."""

    EXACT = 0, "as it is"
    BAR = 1, "as the game's bar of 48 pixels shows it; the maximum is 48"
    HUNDREDTHS = 2, "in hundredths of the maximum; the maximum is 100"


class OddsReason(Named):
    """Why a use of a move cannot hit, of `Odds.reason`."""

    FALLEN = 1, "the user or the foe has no HP"
    LEFT_OUT = 2, "the engine leaves the move out: Metronome, Mimic, Mirror Move, Transform"
    ALWAYS_FAILS = 3, "the move fails in every battle: Roar, Teleport, Whirlwind"
    IMMUNE = 4, "the move's type has no effect on a type of the foe"
    NO_DAMAGE = 5, "the damage is 0 after types"
    FAULT = 6, "the battle would end with a fault: a divisor of 0, or Psywave at level 1"
    SLOWER = 7, "a one-hit move, and the user is slower than the foe"
    NOTHING_TO_COUNTER = 8, "the last damage is 0, or the foe's picked move cannot be countered"
    NO_ENERGY = 9, "Bide has no stored damage to return"
    AWAKE = 10, "Dream Eater, and the foe is awake"
    INVULNERABLE = 11, "the foe has flown up or dug in"
    MIST = 12, "Mist guards the foe's stats"
    SUBSTITUTE = 13, "the foe's substitute blocks the move"
    HAS_STATUS = 14, "the foe already has a status"
    OWN_TYPE = 15, "the foe's type guards it: Poison, Grass, or Ground against Electric paralysis"
    CONFUSED = 16, "the foe is already confused"
    SEEDED = 17, "the foe is already seeded"
    DISABLED = 18, "one of the foe's moves is already disabled"
    NO_PP = 19, "Disable, and none of the foe's moves has PP"
    STAGE = 20, "the stage, or the stat, is at its limit"
    SLEEP_CLAUSE = 21, "the sleep clause: a member of the foe's side is already asleep"
    ALREADY_UP = 22, "the user already has the condition"
    HEALTH = 23, "the user's HP: a loss of 0, 255 or 511 is not healed; a substitute needs a quarter"


class StateField(Named):
    """Which field of a state is wrong, of `BadState.code`."""

    UNNAMED = 0, "unnamed"
    LIMIT = 1, "limit"
    TURN = 2, "turn"
    INDEX = 3, "index"
    OUTCOME = 4, "outcome"
    RULES = 5, "rules"
    REQUEST = 6, "request"
    SPECIES = 7, "species"
    LEVEL = 8, "level"
    MAX_HP = 9, "max hp"
    HP = 10, "hp"
    OWN_STAT = 11, "own stat"
    STATUS = 12, "status"
    SLEEP = 13, "sleep"
    MARKED = 14, "marked"
    MOVE = 15, "move"
    PP = 16, "pp"
    PLACE = 17, "place"
    TYPE = 18, "type"
    STAGE = 19, "stage"
    CONDITIONS = 20, "conditions"
    SUBSTITUTE = 21, "substitute"
    CONFUSION = 22, "confusion"
    DISABLED_SLOT = 23, "disabled slot"
    DISABLED_TURNS = 24, "disabled turns"
    BAD_POISON = 25, "bad poison"
    TURNS = 26, "turns"
    ENERGY = 27, "energy"
    KEPT_ACCURACY = 28, "kept accuracy"
    CURRENT_MOVE = 29, "current move"
    PICKED_MOVE = 30, "picked move"
    TIED_CONDITION = 31, "tied condition"
    CURRENT_STAT = 32, "current stat"


# The version of include/gen1.h that these are made of: its major, its minor and its third number.
HEADER_VERSION = (1, 0, 0)
