       IDENTIFICATION DIVISION.
       PROGRAM-ID. PARTRPT.
      *----------------------------------------------------------------
      * LISTS ALL PARTS WITH THEIR STOCK, SUPPLIERS AND ORDERS, AND THE
      * QUANTITY THAT IS ON HAND AND ON ORDER OF EACH.
      *----------------------------------------------------------------
       ENVIRONMENT DIVISION.
       DATA DIVISION.
       WORKING-STORAGE SECTION.
       77  GN-FUNC                 PIC X(4)  VALUE 'GN  '.
       77  PARTS-READ              PIC 9(5)  VALUE ZERO.
       77  TOTAL-ON-HAND           PIC 9(8)  COMP-3 VALUE ZERO.
       77  TOTAL-ON-ORDER          PIC 9(8)  COMP-3 VALUE ZERO.
       77  EDITED                  PIC ZZZ,ZZ9.
       77  EDITED-ORDER            PIC ZZZ,ZZ9.
       77  EDITED-PRICE            PIC ZZZ,ZZ9.99.
       01  IO-AREA                 PIC X(32).
       01  PART-AREA REDEFINES IO-AREA.
           05  PART-NUMBER         PIC X(6).
           05  PART-DESCRIPTION    PIC X(18).
           05  PART-COLOUR         PIC X(8).
       01  STOCK-AREA REDEFINES IO-AREA.
           05  STOCK-WAREHOUSE     PIC X(3).
           05  STOCK-ON-HAND       PIC 9(6).
       01  SUPPLIER-AREA REDEFINES IO-AREA.
           05  SUPPLIER-NUMBER     PIC X(4).
           05  SUPPLIER-NAME       PIC X(16).
           05  SUPPLIER-PRICE      PIC 9(6)V99.
       01  ORDER-AREA REDEFINES IO-AREA.
           05  ORDER-NUMBER        PIC X(6).
           05  ORDER-QUANTITY      PIC 9(6).
       LINKAGE SECTION.
       01  PARTS-PCB.
           05  PCB-DBD             PIC X(8).
           05  PCB-LEVEL           PIC X(2).
           05  PCB-STATUS          PIC X(2).
               88  SEGMENT-GIVEN             VALUE '  ' 'GA' 'GK'.
               88  END-OF-DATABASE           VALUE 'GB'.
           05  PCB-PROCOPT         PIC X(4).
           05  FILLER              PIC S9(5) COMP.
           05  PCB-SEGMENT         PIC X(8).
           05  PCB-KEY-LENGTH      PIC S9(5) COMP.
           05  PCB-SENSEGS         PIC S9(5) COMP.
           05  PCB-KEY             PIC X(16).
       PROCEDURE DIVISION.
           ENTRY 'DLITCBL' USING PARTS-PCB.
       MAIN-LINE.
           PERFORM GET-NEXT.
           PERFORM SHOW-SEGMENT THRU SHOW-SEGMENT-EXIT
               UNTIL END-OF-DATABASE.
           PERFORM SHOW-TOTALS.
           DISPLAY PARTS-READ ' PARTS'.
           GOBACK.
       GET-NEXT.
           CALL 'CBLTDLI' USING GN-FUNC PARTS-PCB IO-AREA.
       SHOW-SEGMENT.
           IF NOT SEGMENT-GIVEN
               DISPLAY 'PARTRPT: STATUS ' PCB-STATUS
               MOVE 8 TO RETURN-CODE
               GOBACK.
           EVALUATE PCB-SEGMENT
               WHEN 'PART'
                   PERFORM SHOW-TOTALS
                   ADD 1 TO PARTS-READ
                   MOVE ZERO TO TOTAL-ON-HAND TOTAL-ON-ORDER
                   DISPLAY PART-NUMBER ' ' PART-DESCRIPTION
                       ' ' PART-COLOUR
               WHEN 'STOCK'
                   ADD STOCK-ON-HAND TO TOTAL-ON-HAND
                   MOVE STOCK-ON-HAND TO EDITED
                   DISPLAY '  IN ' STOCK-WAREHOUSE ' ' EDITED
               WHEN 'SUPPLIER'
                   MOVE SUPPLIER-PRICE TO EDITED-PRICE
                   DISPLAY '  BY ' SUPPLIER-NAME ' AT ' EDITED-PRICE
               WHEN 'ORDER'
                   ADD ORDER-QUANTITY TO TOTAL-ON-ORDER
                   MOVE ORDER-QUANTITY TO EDITED
                   DISPLAY '    ORDER ' ORDER-NUMBER ' OF ' EDITED
           END-EVALUATE.
           PERFORM GET-NEXT.
       SHOW-SEGMENT-EXIT.
           EXIT.
       SHOW-TOTALS.
           IF PARTS-READ > 0
               MOVE TOTAL-ON-HAND TO EDITED
               MOVE TOTAL-ON-ORDER TO EDITED-ORDER
               DISPLAY '  ON HAND ' EDITED ', ON ORDER ' EDITED-ORDER.
