--  Allocators with a value call the Allocate that the user wrote: the value is read before that is called, which
--  changes what was read; the object takes the value and is adjusted after it, or nothing is made where it raises an
--  exception (RM 4.8, 7.6, 13.11).
with Ada.Finalization;        use Ada.Finalization;
with Ada.Text_IO;             use Ada.Text_IO;
with System;                  use System;
with System.Storage_Elements; use System.Storage_Elements;
with Block_Pools;             use Block_Pools;

procedure Valued is
   type T is new Controlled with record
      N : Integer := 0;
   end record;

   overriding procedure Adjust (X : in out T);
   overriding procedure Finalize (X : in out T);

   type Pair is record
      A, B : Integer;
   end record;

   Full : exception;

   procedure Adjust (X : in out T) is
   begin
      Put_Line ("A" & Integer'Image (X.N));
   end Adjust;

   procedure Finalize (X : in out T) is
   begin
      Put_Line ("F" & Integer'Image (X.N));
   end Finalize;
begin
   declare
      Source : T;

      type Pool is new Block_Pool with record
         Asked : Integer;
      end record;

      overriding procedure Allocate (X : in out Pool; A : out System.Address; S, L : in Storage_Count);

      procedure Allocate (X : in out Pool; A : out System.Address; S, L : in Storage_Count) is
      begin
         X.Asked := X.Asked + 1;
         Source.N := Source.N + 10;
         if Source.N > 15 then
            raise Full;
         end if;
         Allocate (Block_Pool (X), A, S, L);
      end Allocate;
   begin
      declare
         P : Pool (16, 2);

         type Ref is access T with Storage_Pool => P;

         type Pair_Ref is access Pair with Storage_Pool => P;

         V : Ref;
         W : Pair_Ref;
         Both : Pair;
      begin
         Source.N := 1;
         V := new T'(Source);
         Put_Line (Integer'Image (V.N) & Integer'Image (Source.N));
         Source.N := 0;
         Both.A := 5;
         Both.B := 7;
         W := new Pair'(Both);
         Put_Line (Integer'Image (W.A) & Integer'Image (W.B));
         Source.N := 8;
         begin
            V := new T'(Source);
         exception
            when Full =>
               Put_Line ("full" & Integer'Image (Source.N) & Integer'Image (V.N));
         end;
         Put_Line (Integer'Image (P.Asked));
      end;
   end;
end Valued;
