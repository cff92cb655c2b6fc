use crate::standins::names::remove_name_from_attr_map;
