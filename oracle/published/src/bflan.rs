//! Animations: the published text, but for the file that holds them.

pub mod anim_info {
    include!("../../../../shared/docs/src--nnbfl--src--bflan--anim_info.rs.txt");
}

pub mod curves {
    include!("../../../../shared/docs/src--nnbfl--src--bflan--curves.rs.txt");
}

pub mod targets {
    include!("../../../../shared/docs/src--nnbfl--src--bflan--targets.rs.txt");
}

/// Stand-in: an animation file is its tag and its animation.
pub mod file {
    use super::anim_info::PaneAnimInfo;
    use crate::ui2d::userdata::UserDataArray;

    #[derive(Clone, Default)]
    pub struct Bflan {
        pub anim_tag: AnimTag,
        pub anim_info: PaneAnimInfo,
    }

    #[derive(Clone, Default)]
    pub struct AnimTag {
        pub o_name: String,
        pub groups: Vec<String>,
        pub user_data: Option<UserDataArray>,
    }
}
