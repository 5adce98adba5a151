theory Start begin
  lemma step_0:
    "premise_0_0 ==> premise_0_1 ==> premise_0_2 ==> premise_0_3 ==> premise_0_4 ==> premise_0_5 ==> premise_0_0"
    by assumption
  lemma step_1:
    "premise_1_0 ==> premise_1_1 ==> premise_1_2 ==> premise_1_3 ==> premise_1_4 ==> premise_1_5 ==> premise_1_1"
    by assumption
  lemma step_2:
    "premise_2_0 ==> premise_2_1 ==> premise_2_2 ==> premise_2_3 ==> premise_2_4 ==> premise_2_5 ==> premise_2_2"
    by assumption
  lemma step_3:
    "premise_3_0 ==> premise_3_1 ==> premise_3_2 ==> premise_3_3 ==> premise_3_4 ==> premise_3_5 ==> premise_3_3"
    by assumption
  lemma step_4:
    "premise_4_0 ==> premise_4_1 ==> premise_4_2 ==> premise_4_3 ==> premise_4_4 ==> premise_4_5 ==> premise_4_4"
    by assumption
  lemma step_5:
    "premise_5_0 ==> premise_5_1 ==> premise_5_2 ==> premise_5_3 ==> premise_5_4 ==> premise_5_5 ==> premise_5_5"
    by assumption
  lemma step_6:
    "premise_6_0 ==> premise_6_1 ==> premise_6_2 ==> premise_6_3 ==> premise_6_4 ==> premise_6_5 ==> premise_6_0"
    by assumption
  lemma step_7:
    "premise_7_0 ==> premise_7_1 ==> premise_7_2 ==> premise_7_3 ==> premise_7_4 ==> premise_7_5 ==> premise_7_1"
    by assumption
  lemma step_8:
    "premise_8_0 ==> premise_8_1 ==> premise_8_2 ==> premise_8_3 ==> premise_8_4 ==> premise_8_5 ==> premise_8_2"
    by assumption
  lemma step_9:
    "premise_9_0 ==> premise_9_1 ==> premise_9_2 ==> premise_9_3 ==> premise_9_4 ==> premise_9_5 ==> premise_9_3"
    by assumption
  lemma step_10:
    "premise_10_0 ==> premise_10_1 ==> premise_10_2 ==> premise_10_3 ==> premise_10_4 ==> premise_10_5 ==> premise_10_4"
    by assumption
  lemma step_11:
    "premise_11_0 ==> premise_11_1 ==> premise_11_2 ==> premise_11_3 ==> premise_11_4 ==> premise_11_5 ==> premise_11_5"
    by assumption
  lemma step_12:
    "premise_12_0 ==> premise_12_1 ==> premise_12_2 ==> premise_12_3 ==> premise_12_4 ==> premise_12_5 ==> premise_12_0"
    by assumption
  lemma step_13:
    "premise_13_0 ==> premise_13_1 ==> premise_13_2 ==> premise_13_3 ==> premise_13_4 ==> premise_13_5 ==> premise_13_1"
    by assumption
  lemma step_14:
    "premise_14_0 ==> premise_14_1 ==> premise_14_2 ==> premise_14_3 ==> premise_14_4 ==> premise_14_5 ==> premise_14_2"
    by assumption
  lemma step_15:
    "premise_15_0 ==> premise_15_1 ==> premise_15_2 ==> premise_15_3 ==> premise_15_4 ==> premise_15_5 ==> premise_15_3"
    by assumption
  lemma step_16:
    "premise_16_0 ==> premise_16_1 ==> premise_16_2 ==> premise_16_3 ==> premise_16_4 ==> premise_16_5 ==> premise_16_4"
    by assumption
  lemma step_17:
    "premise_17_0 ==> premise_17_1 ==> premise_17_2 ==> premise_17_3 ==> premise_17_4 ==> premise_17_5 ==> premise_17_5"
    by assumption
  lemma step_18:
    "premise_18_0 ==> premise_18_1 ==> premise_18_2 ==> premise_18_3 ==> premise_18_4 ==> premise_18_5 ==> premise_18_0"
    by assumption
  lemma step_19:
    "premise_19_0 ==> premise_19_1 ==> premise_19_2 ==> premise_19_3 ==> premise_19_4 ==> premise_19_5 ==> premise_19_1"
    by assumption
  lemma step_20:
    "premise_20_0 ==> premise_20_1 ==> premise_20_2 ==> premise_20_3 ==> premise_20_4 ==> premise_20_5 ==> premise_20_2"
    by assumption
  lemma step_21:
    "premise_21_0 ==> premise_21_1 ==> premise_21_2 ==> premise_21_3 ==> premise_21_4 ==> premise_21_5 ==> premise_21_3"
    by assumption
  lemma step_22:
    "premise_22_0 ==> premise_22_1 ==> premise_22_2 ==> premise_22_3 ==> premise_22_4 ==> premise_22_5 ==> premise_22_4"
    by assumption
  lemma step_23:
    "premise_23_0 ==> premise_23_1 ==> premise_23_2 ==> premise_23_3 ==> premise_23_4 ==> premise_23_5 ==> premise_23_5"
    by assumption
  lemma step_24:
    "premise_24_0 ==> premise_24_1 ==> premise_24_2 ==> premise_24_3 ==> premise_24_4 ==> premise_24_5 ==> premise_24_0"
    by assumption
  lemma step_25:
    "premise_25_0 ==> premise_25_1 ==> premise_25_2 ==> premise_25_3 ==> premise_25_4 ==> premise_25_5 ==> premise_25_1"
    by assumption
  lemma step_26:
    "premise_26_0 ==> premise_26_1 ==> premise_26_2 ==> premise_26_3 ==> premise_26_4 ==> premise_26_5 ==> premise_26_2"
    by assumption
  lemma step_27:
    "premise_27_0 ==> premise_27_1 ==> premise_27_2 ==> premise_27_3 ==> premise_27_4 ==> premise_27_5 ==> premise_27_3"
    by assumption
  lemma step_28:
    "premise_28_0 ==> premise_28_1 ==> premise_28_2 ==> premise_28_3 ==> premise_28_4 ==> premise_28_5 ==> premise_28_4"
    by assumption
  lemma step_29:
    "premise_29_0 ==> premise_29_1 ==> premise_29_2 ==> premise_29_3 ==> premise_29_4 ==> premise_29_5 ==> premise_29_5"
    by assumption
  lemma step_30:
    "premise_30_0 ==> premise_30_1 ==> premise_30_2 ==> premise_30_3 ==> premise_30_4 ==> premise_30_5 ==> premise_30_0"
    by assumption
  lemma step_31:
    "premise_31_0 ==> premise_31_1 ==> premise_31_2 ==> premise_31_3 ==> premise_31_4 ==> premise_31_5 ==> premise_31_1"
    by assumption
  lemma step_32:
    "premise_32_0 ==> premise_32_1 ==> premise_32_2 ==> premise_32_3 ==> premise_32_4 ==> premise_32_5 ==> premise_32_2"
    by assumption
  lemma step_33:
    "premise_33_0 ==> premise_33_1 ==> premise_33_2 ==> premise_33_3 ==> premise_33_4 ==> premise_33_5 ==> premise_33_3"
    by assumption
  lemma step_34:
    "premise_34_0 ==> premise_34_1 ==> premise_34_2 ==> premise_34_3 ==> premise_34_4 ==> premise_34_5 ==> premise_34_4"
    by assumption
  lemma step_35:
    "premise_35_0 ==> premise_35_1 ==> premise_35_2 ==> premise_35_3 ==> premise_35_4 ==> premise_35_5 ==> premise_35_5"
    by assumption
  lemma step_36:
    "premise_36_0 ==> premise_36_1 ==> premise_36_2 ==> premise_36_3 ==> premise_36_4 ==> premise_36_5 ==> premise_36_0"
    by assumption
  lemma step_37:
    "premise_37_0 ==> premise_37_1 ==> premise_37_2 ==> premise_37_3 ==> premise_37_4 ==> premise_37_5 ==> premise_37_1"
    by assumption
  lemma step_38:
    "premise_38_0 ==> premise_38_1 ==> premise_38_2 ==> premise_38_3 ==> premise_38_4 ==> premise_38_5 ==> premise_38_2"
    by assumption
  lemma step_39:
    "premise_39_0 ==> premise_39_1 ==> premise_39_2 ==> premise_39_3 ==> premise_39_4 ==> premise_39_5 ==> premise_39_3"
    by assumption
  lemma step_40:
    "premise_40_0 ==> premise_40_1 ==> premise_40_2 ==> premise_40_3 ==> premise_40_4 ==> premise_40_5 ==> premise_40_4"
    by assumption
  lemma step_41:
    "premise_41_0 ==> premise_41_1 ==> premise_41_2 ==> premise_41_3 ==> premise_41_4 ==> premise_41_5 ==> premise_41_5"
    by assumption
  lemma step_42:
    "premise_42_0 ==> premise_42_1 ==> premise_42_2 ==> premise_42_3 ==> premise_42_4 ==> premise_42_5 ==> premise_42_0"
    by assumption
  lemma step_43:
    "premise_43_0 ==> premise_43_1 ==> premise_43_2 ==> premise_43_3 ==> premise_43_4 ==> premise_43_5 ==> premise_43_1"
    by assumption
  lemma step_44:
    "premise_44_0 ==> premise_44_1 ==> premise_44_2 ==> premise_44_3 ==> premise_44_4 ==> premise_44_5 ==> premise_44_2"
    by assumption
  lemma step_45:
    "premise_45_0 ==> premise_45_1 ==> premise_45_2 ==> premise_45_3 ==> premise_45_4 ==> premise_45_5 ==> premise_45_3"
    by assumption
  lemma step_46:
    "premise_46_0 ==> premise_46_1 ==> premise_46_2 ==> premise_46_3 ==> premise_46_4 ==> premise_46_5 ==> premise_46_4"
    by assumption
  lemma step_47:
    "premise_47_0 ==> premise_47_1 ==> premise_47_2 ==> premise_47_3 ==> premise_47_4 ==> premise_47_5 ==> premise_47_5"
    by assumption
  lemma step_48:
    "premise_48_0 ==> premise_48_1 ==> premise_48_2 ==> premise_48_3 ==> premise_48_4 ==> premise_48_5 ==> premise_48_0"
    by assumption
  lemma step_49:
    "premise_49_0 ==> premise_49_1 ==> premise_49_2 ==> premise_49_3 ==> premise_49_4 ==> premise_49_5 ==> premise_49_1"
    by assumption
  lemma step_50:
    "premise_50_0 ==> premise_50_1 ==> premise_50_2 ==> premise_50_3 ==> premise_50_4 ==> premise_50_5 ==> premise_50_2"
    by assumption
  lemma step_51:
    "premise_51_0 ==> premise_51_1 ==> premise_51_2 ==> premise_51_3 ==> premise_51_4 ==> premise_51_5 ==> premise_51_3"
    by assumption
  lemma step_52:
    "premise_52_0 ==> premise_52_1 ==> premise_52_2 ==> premise_52_3 ==> premise_52_4 ==> premise_52_5 ==> premise_52_4"
    by assumption
  lemma step_53:
    "premise_53_0 ==> premise_53_1 ==> premise_53_2 ==> premise_53_3 ==> premise_53_4 ==> premise_53_5 ==> premise_53_5"
    by assumption
  lemma step_54:
    "premise_54_0 ==> premise_54_1 ==> premise_54_2 ==> premise_54_3 ==> premise_54_4 ==> premise_54_5 ==> premise_54_0"
    by assumption
  lemma step_55:
    "premise_55_0 ==> premise_55_1 ==> premise_55_2 ==> premise_55_3 ==> premise_55_4 ==> premise_55_5 ==> premise_55_1"
    by assumption
  lemma step_56:
    "premise_56_0 ==> premise_56_1 ==> premise_56_2 ==> premise_56_3 ==> premise_56_4 ==> premise_56_5 ==> premise_56_2"
    by assumption
  lemma step_57:
    "premise_57_0 ==> premise_57_1 ==> premise_57_2 ==> premise_57_3 ==> premise_57_4 ==> premise_57_5 ==> premise_57_3"
    by assumption
  lemma step_58:
    "premise_58_0 ==> premise_58_1 ==> premise_58_2 ==> premise_58_3 ==> premise_58_4 ==> premise_58_5 ==> premise_58_4"
    by assumption
  lemma step_59:
    "premise_59_0 ==> premise_59_1 ==> premise_59_2 ==> premise_59_3 ==> premise_59_4 ==> premise_59_5 ==> premise_59_5"
    by assumption
  lemma step_60:
    "premise_60_0 ==> premise_60_1 ==> premise_60_2 ==> premise_60_3 ==> premise_60_4 ==> premise_60_5 ==> premise_60_0"
    by assumption
  lemma step_61:
    "premise_61_0 ==> premise_61_1 ==> premise_61_2 ==> premise_61_3 ==> premise_61_4 ==> premise_61_5 ==> premise_61_1"
    by assumption
  lemma step_62:
    "premise_62_0 ==> premise_62_1 ==> premise_62_2 ==> premise_62_3 ==> premise_62_4 ==> premise_62_5 ==> premise_62_2"
    by assumption
  lemma step_63:
    "premise_63_0 ==> premise_63_1 ==> premise_63_2 ==> premise_63_3 ==> premise_63_4 ==> premise_63_5 ==> premise_63_3"
    by assumption
  lemma step_64:
    "premise_64_0 ==> premise_64_1 ==> premise_64_2 ==> premise_64_3 ==> premise_64_4 ==> premise_64_5 ==> premise_64_4"
    by assumption
  lemma step_65:
    "premise_65_0 ==> premise_65_1 ==> premise_65_2 ==> premise_65_3 ==> premise_65_4 ==> premise_65_5 ==> premise_65_5"
    by assumption
  lemma step_66:
    "premise_66_0 ==> premise_66_1 ==> premise_66_2 ==> premise_66_3 ==> premise_66_4 ==> premise_66_5 ==> premise_66_0"
    by assumption
  lemma step_67:
    "premise_67_0 ==> premise_67_1 ==> premise_67_2 ==> premise_67_3 ==> premise_67_4 ==> premise_67_5 ==> premise_67_1"
    by assumption
  lemma step_68:
    "premise_68_0 ==> premise_68_1 ==> premise_68_2 ==> premise_68_3 ==> premise_68_4 ==> premise_68_5 ==> premise_68_2"
    by assumption
  lemma step_69:
    "premise_69_0 ==> premise_69_1 ==> premise_69_2 ==> premise_69_3 ==> premise_69_4 ==> premise_69_5 ==> premise_69_3"
    by assumption
  lemma step_70:
    "premise_70_0 ==> premise_70_1 ==> premise_70_2 ==> premise_70_3 ==> premise_70_4 ==> premise_70_5 ==> premise_70_4"
    by assumption
  lemma step_71:
    "premise_71_0 ==> premise_71_1 ==> premise_71_2 ==> premise_71_3 ==> premise_71_4 ==> premise_71_5 ==> premise_71_5"
    by assumption
  lemma step_72:
    "premise_72_0 ==> premise_72_1 ==> premise_72_2 ==> premise_72_3 ==> premise_72_4 ==> premise_72_5 ==> premise_72_0"
    by assumption
  lemma step_73:
    "premise_73_0 ==> premise_73_1 ==> premise_73_2 ==> premise_73_3 ==> premise_73_4 ==> premise_73_5 ==> premise_73_1"
    by assumption
  lemma step_74:
    "premise_74_0 ==> premise_74_1 ==> premise_74_2 ==> premise_74_3 ==> premise_74_4 ==> premise_74_5 ==> premise_74_2"
    by assumption
  lemma step_75:
    "premise_75_0 ==> premise_75_1 ==> premise_75_2 ==> premise_75_3 ==> premise_75_4 ==> premise_75_5 ==> premise_75_3"
    by assumption
  lemma step_76:
    "premise_76_0 ==> premise_76_1 ==> premise_76_2 ==> premise_76_3 ==> premise_76_4 ==> premise_76_5 ==> premise_76_4"
    by assumption
  lemma step_77:
    "premise_77_0 ==> premise_77_1 ==> premise_77_2 ==> premise_77_3 ==> premise_77_4 ==> premise_77_5 ==> other"
    by assumption
  lemma step_78:
    "premise_78_0 ==> premise_78_1 ==> premise_78_2 ==> premise_78_3 ==> premise_78_4 ==> premise_78_5 ==> premise_78_0"
    by assumption
  lemma step_79:
    "premise_79_0 ==> premise_79_1 ==> premise_79_2 ==> premise_79_3 ==> premise_79_4 ==> premise_79_5 ==> premise_79_1"
    by assumption
  lemma step_80:
    "premise_80_0 ==> premise_80_1 ==> premise_80_2 ==> premise_80_3 ==> premise_80_4 ==> premise_80_5 ==> premise_80_2"
    by assumption
  lemma step_81:
    "premise_81_0 ==> premise_81_1 ==> premise_81_2 ==> premise_81_3 ==> premise_81_4 ==> premise_81_5 ==> premise_81_3"
    by assumption
  lemma step_82:
    "premise_82_0 ==> premise_82_1 ==> premise_82_2 ==> premise_82_3 ==> premise_82_4 ==> premise_82_5 ==> premise_82_4"
    by assumption
  lemma step_83:
    "premise_83_0 ==> premise_83_1 ==> premise_83_2 ==> premise_83_3 ==> premise_83_4 ==> premise_83_5 ==> premise_83_5"
    by assumption
  lemma step_84:
    "premise_84_0 ==> premise_84_1 ==> premise_84_2 ==> premise_84_3 ==> premise_84_4 ==> premise_84_5 ==> premise_84_0"
    by assumption
  lemma step_85:
    "premise_85_0 ==> premise_85_1 ==> premise_85_2 ==> premise_85_3 ==> premise_85_4 ==> premise_85_5 ==> premise_85_1"
    by assumption
  lemma step_86:
    "premise_86_0 ==> premise_86_1 ==> premise_86_2 ==> premise_86_3 ==> premise_86_4 ==> premise_86_5 ==> premise_86_2"
    by assumption
  lemma step_87:
    "premise_87_0 ==> premise_87_1 ==> premise_87_2 ==> premise_87_3 ==> premise_87_4 ==> premise_87_5 ==> premise_87_3"
    by assumption
  lemma step_88:
    "premise_88_0 ==> premise_88_1 ==> premise_88_2 ==> premise_88_3 ==> premise_88_4 ==> premise_88_5 ==> premise_88_4"
    by assumption
  lemma step_89:
    "premise_89_0 ==> premise_89_1 ==> premise_89_2 ==> premise_89_3 ==> premise_89_4 ==> premise_89_5 ==> premise_89_5"
    by assumption
  lemma step_90:
    "premise_90_0 ==> premise_90_1 ==> premise_90_2 ==> premise_90_3 ==> premise_90_4 ==> premise_90_5 ==> premise_90_0"
    by assumption
  lemma step_91:
    "premise_91_0 ==> premise_91_1 ==> premise_91_2 ==> premise_91_3 ==> premise_91_4 ==> premise_91_5 ==> premise_91_1"
    by assumption
  lemma step_92:
    "premise_92_0 ==> premise_92_1 ==> premise_92_2 ==> premise_92_3 ==> premise_92_4 ==> premise_92_5 ==> premise_92_2"
    by assumption
  lemma step_93:
    "premise_93_0 ==> premise_93_1 ==> premise_93_2 ==> premise_93_3 ==> premise_93_4 ==> premise_93_5 ==> premise_93_3"
    by assumption
  lemma step_94:
    "premise_94_0 ==> premise_94_1 ==> premise_94_2 ==> premise_94_3 ==> premise_94_4 ==> premise_94_5 ==> premise_94_4"
    by assumption
  lemma step_95:
    "premise_95_0 ==> premise_95_1 ==> premise_95_2 ==> premise_95_3 ==> premise_95_4 ==> premise_95_5 ==> premise_95_5"
    by assumption
  lemma step_96:
    "premise_96_0 ==> premise_96_1 ==> premise_96_2 ==> premise_96_3 ==> premise_96_4 ==> premise_96_5 ==> premise_96_0"
    by assumption
  lemma step_97:
    "premise_97_0 ==> premise_97_1 ==> premise_97_2 ==> premise_97_3 ==> premise_97_4 ==> premise_97_5 ==> premise_97_1"
    by assumption
  lemma step_98:
    "premise_98_0 ==> premise_98_1 ==> premise_98_2 ==> premise_98_3 ==> premise_98_4 ==> premise_98_5 ==> premise_98_2"
    by assumption
  lemma step_99:
    "premise_99_0 ==> premise_99_1 ==> premise_99_2 ==> premise_99_3 ==> premise_99_4 ==> premise_99_5 ==> premise_99_3"
    by assumption
  lemma step_100:
    "premise_100_0 ==> premise_100_1 ==> premise_100_2 ==> premise_100_3 ==> premise_100_4 ==> premise_100_5 ==> premise_100_4"
    by assumption
  lemma step_101:
    "premise_101_0 ==> premise_101_1 ==> premise_101_2 ==> premise_101_3 ==> premise_101_4 ==> premise_101_5 ==> premise_101_5"
    by assumption
  lemma step_102:
    "premise_102_0 ==> premise_102_1 ==> premise_102_2 ==> premise_102_3 ==> premise_102_4 ==> premise_102_5 ==> premise_102_0"
    by assumption
  lemma step_103:
    "premise_103_0 ==> premise_103_1 ==> premise_103_2 ==> premise_103_3 ==> premise_103_4 ==> premise_103_5 ==> premise_103_1"
    by assumption
  lemma step_104:
    "premise_104_0 ==> premise_104_1 ==> premise_104_2 ==> premise_104_3 ==> premise_104_4 ==> premise_104_5 ==> premise_104_2"
    by assumption
  lemma step_105:
    "premise_105_0 ==> premise_105_1 ==> premise_105_2 ==> premise_105_3 ==> premise_105_4 ==> premise_105_5 ==> premise_105_3"
    by assumption
  lemma step_106:
    "premise_106_0 ==> premise_106_1 ==> premise_106_2 ==> premise_106_3 ==> premise_106_4 ==> premise_106_5 ==> premise_106_4"
    by assumption
  lemma step_107:
    "premise_107_0 ==> premise_107_1 ==> premise_107_2 ==> premise_107_3 ==> premise_107_4 ==> premise_107_5 ==> premise_107_5"
    by assumption
  lemma step_108:
    "premise_108_0 ==> premise_108_1 ==> premise_108_2 ==> premise_108_3 ==> premise_108_4 ==> premise_108_5 ==> premise_108_0"
    by assumption
  lemma step_109:
    "premise_109_0 ==> premise_109_1 ==> premise_109_2 ==> premise_109_3 ==> premise_109_4 ==> premise_109_5 ==> premise_109_1"
    by assumption
  lemma step_110:
    "premise_110_0 ==> premise_110_1 ==> premise_110_2 ==> premise_110_3 ==> premise_110_4 ==> premise_110_5 ==> premise_110_2"
    by assumption
  lemma step_111:
    "premise_111_0 ==> premise_111_1 ==> premise_111_2 ==> premise_111_3 ==> premise_111_4 ==> premise_111_5 ==> premise_111_3"
    by assumption
  lemma step_112:
    "premise_112_0 ==> premise_112_1 ==> premise_112_2 ==> premise_112_3 ==> premise_112_4 ==> premise_112_5 ==> premise_112_4"
    by assumption
  lemma step_113:
    "premise_113_0 ==> premise_113_1 ==> premise_113_2 ==> premise_113_3 ==> premise_113_4 ==> premise_113_5 ==> premise_113_5"
    by assumption
  lemma step_114:
    "premise_114_0 ==> premise_114_1 ==> premise_114_2 ==> premise_114_3 ==> premise_114_4 ==> premise_114_5 ==> premise_114_0"
    by assumption
  lemma step_115:
    "premise_115_0 ==> premise_115_1 ==> premise_115_2 ==> premise_115_3 ==> premise_115_4 ==> premise_115_5 ==> premise_115_1"
    by assumption
  lemma step_116:
    "premise_116_0 ==> premise_116_1 ==> premise_116_2 ==> premise_116_3 ==> premise_116_4 ==> premise_116_5 ==> premise_116_2"
    by assumption
  lemma step_117:
    "premise_117_0 ==> premise_117_1 ==> premise_117_2 ==> premise_117_3 ==> premise_117_4 ==> premise_117_5 ==> premise_117_3"
    by assumption
  lemma step_118:
    "premise_118_0 ==> premise_118_1 ==> premise_118_2 ==> premise_118_3 ==> premise_118_4 ==> premise_118_5 ==> premise_118_4"
    by assumption
  lemma step_119:
    "premise_119_0 ==> premise_119_1 ==> premise_119_2 ==> premise_119_3 ==> premise_119_4 ==> premise_119_5 ==> premise_119_5"
    by assumption
end
