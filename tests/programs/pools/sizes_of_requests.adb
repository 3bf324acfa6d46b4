--  How large a request is: the storage units of a type's components and of its tag, and eight at least (RM 13.3, 13.11).
--  A pool with blocks of that size has room for the object; one with smaller blocks raises Storage_Error.
with Ada.Finalization; use Ada.Finalization;
with Ada.Text_IO;      use Ada.Text_IO;
with Block_Pools;      use Block_Pools;

procedure Sizes_Of_Requests is
   type Nothing is record
      null;
   end record;

   type Flag is record
      B : Boolean;
   end record;

   type Watched is new Controlled with null record;

   type Pair is record
      M, N : Integer;
   end record;

   type Counted is new Controlled with record
      N : Integer;
   end record;

   type Two_Nothings is record
      X, Y : Nothing;
   end record;

   type Watched_Twice is new Watched with record
      X : Watched;
   end record;

   type Counted_Flag is new Counted with record
      B : Boolean;
   end record;

   type Holder is record
      X : Counted;
      Y : Integer;
   end record;
begin
   declare
      P : Block_Pool (8, 1);

      type Ref is access Nothing with Storage_Pool => P;

      A : Ref;
   begin
      A := new Nothing;
      Put_Line ("Nothing in 8");
   end;
   declare
      P : Block_Pool (8, 1);

      type Ref is access Flag with Storage_Pool => P;

      A : Ref;
   begin
      A := new Flag;
      Put_Line ("Flag in 8");
   end;
   declare
      P : Block_Pool (8, 1);

      type Ref is access Watched with Storage_Pool => P;

      A : Ref;
   begin
      A := new Watched;
      Put_Line ("Watched in 8");
   end;
   declare
      P : Block_Pool (16, 1);
      Q : Block_Pool (15, 1);

      type Ref is access Pair with Storage_Pool => P;
      type Small is access Pair with Storage_Pool => Q;

      A : Ref;
      B : Small;
   begin
      A := new Pair;
      Put_Line ("Pair in 16");
      B := new Pair;
   exception
      when Storage_Error =>
         Put_Line ("Pair not in 15");
   end;
   declare
      P : Block_Pool (16, 1);
      Q : Block_Pool (15, 1);

      type Ref is access Counted with Storage_Pool => P;
      type Small is access Counted with Storage_Pool => Q;

      A : Ref;
      B : Small;
   begin
      A := new Counted;
      Put_Line ("Counted in 16");
      B := new Counted;
   exception
      when Storage_Error =>
         Put_Line ("Counted not in 15");
   end;
   declare
      P : Block_Pool (16, 1);
      Q : Block_Pool (15, 1);

      type Ref is access Two_Nothings with Storage_Pool => P;
      type Small is access Two_Nothings with Storage_Pool => Q;

      A : Ref;
      B : Small;
   begin
      A := new Two_Nothings;
      Put_Line ("Two_Nothings in 16");
      B := new Two_Nothings;
   exception
      when Storage_Error =>
         Put_Line ("Two_Nothings not in 15");
   end;
   declare
      P : Block_Pool (16, 1);
      Q : Block_Pool (15, 1);

      type Ref is access Watched_Twice with Storage_Pool => P;
      type Small is access Watched_Twice with Storage_Pool => Q;

      A : Ref;
      B : Small;
   begin
      A := new Watched_Twice;
      Put_Line ("Watched_Twice in 16");
      B := new Watched_Twice;
   exception
      when Storage_Error =>
         Put_Line ("Watched_Twice not in 15");
   end;
   declare
      P : Block_Pool (24, 1);
      Q : Block_Pool (23, 1);

      type Ref is access Counted_Flag with Storage_Pool => P;
      type Small is access Counted_Flag with Storage_Pool => Q;

      A : Ref;
      B : Small;
   begin
      A := new Counted_Flag;
      Put_Line ("Counted_Flag in 24");
      B := new Counted_Flag;
   exception
      when Storage_Error =>
         Put_Line ("Counted_Flag not in 23");
   end;
   declare
      P : Block_Pool (24, 1);
      Q : Block_Pool (23, 1);

      type Ref is access Holder with Storage_Pool => P;
      type Small is access Holder with Storage_Pool => Q;

      A : Ref;
      B : Small;
   begin
      A := new Holder;
      Put_Line ("Holder in 24");
      B := new Holder;
   exception
      when Storage_Error =>
         Put_Line ("Holder not in 23");
   end;
end Sizes_Of_Requests;
